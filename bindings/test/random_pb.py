"""Reads random nodes of DAG-PB, and nodes that are changed in a few places. Compares the library
with a reader that shares no code with it.

usage: python random_pb.py [COUNT [SEED [LIBRARY]]]

The entries of kombilad_pb_tape are compared through ctypes. They are those of LIBRARY, or of the
library in the package.
"""

import ctypes
import sys

import kombilad
import reader
from random_blocks import UNWRITTEN, Entry, Source, compare, outcome, varint


class PbSource(Source):
    def number(self, number):
        """Returns a varint, which is sometimes longer than necessary."""
        encoded = varint(number)
        if self.random.random() < 0.02 and len(encoded) < 10:
            return (
                encoded[:-1]
                + bytes([encoded[-1] | 128])
                + bytes([128] * self.random.randrange(10 - len(encoded)))
                + b"\0"
            )
        return encoded

    def content(self, field, content):
        return self.number(8 * field + 2) + self.number(len(content)) + content

    def link(self):
        choose = self.random
        message = self.content(1, self.cid())
        if choose.random() < 0.8:
            message += self.content(2, self.text())
        if choose.random() < 0.8:
            message += self.number(24) + self.number(self.integer())
        return self.content(2, message)

    def node(self):
        choose = self.random
        links = b"".join(self.link() for _ in range(choose.choice([0, 0, 1, 2, 3, 5, 60])))
        data = (
            self.content(1, choose.randbytes(choose.choice([0, 1, 20, 200])))
            if choose.random() < 0.7
            else b""
        )
        return links + data if choose.random() < 0.7 else data + links

    def changed_node(self, node):
        choose = self.random
        if choose.random() < 0.4:
            at = choose.randrange(len(node) + 1)
            return (
                node[:at]
                + choose.choice(
                    [
                        b"\x0a",
                        b"\x12",
                        b"\x18",
                        b"\x1a",
                        self.link(),
                        self.content(1, b"x"),
                        b"\xff" * 10,
                    ]
                )
                + node[at:]
            )
        return self.changed(node)


def tape(block, count, library):
    """
    Calls kombilad_pb_tape with a buffer of `count` entries. Returns the entries, or the name of its
    error and the offset.
    """
    entries, needed, offset = (
        (Entry * (count + 1))(),
        ctypes.c_size_t(UNWRITTEN),
        ctypes.c_size_t(UNWRITTEN),
    )
    entries[count].kind = UNWRITTEN
    status = library.kombilad_pb_tape(
        block,
        ctypes.c_size_t(len(block)),
        entries,
        ctypes.c_size_t(count),
        ctypes.byref(needed),
        ctypes.byref(offset),
    )
    found = [(it.kind, it.len, it.value) for it in entries]
    untouched = [(0, 0, 0)] * count + [(UNWRITTEN, 0, 0)]
    name = kombilad.Status(status).name
    if status == kombilad.Status.OK and (offset.value, found[needed.value :]) == (
        UNWRITTEN,
        untouched[needed.value :],
    ):
        return found[: needed.value]
    if status == kombilad.Status.TOO_SHORT and (offset.value, found) == (UNWRITTEN, untouched):
        return name, needed.value
    return (
        (name, offset.value)
        if (needed.value, found) == (UNWRITTEN, untouched)
        else (name, "written", needed.value, offset.value, found)
    )


def expected(block):
    try:
        return reader.read_pb(block)
    except reader.Rejected as why:
        return (
            "LINK_" + why.name[5:] if why.name.startswith("LINK ") else "PB_" + why.name,
            why.offset,
        )


def node_of(block, entries):
    """Returns the node of these entries, with CIDs as bytes."""
    node, links = {}, []
    for kind, length, value in entries:
        content = block[value : value + length]
        if kind == 8:
            links.append({"Hash": content})
        elif kind == 7:
            node["Data"] = content
        else:
            links[-1]["Name" if kind == 6 else "Tsize"] = content.decode() if kind == 6 else value
    node["Links"] = links
    return node


def compare_node(source, block, library):
    read = expected(block)
    fine = isinstance(read, list)
    count = len(read) if fine else source.random.randrange(3)
    compare("pb_tape", block, tape(block, count + source.random.randrange(2), library), read)
    if fine and count:
        compare(
            "pb_tape, too short,",
            block,
            tape(block, source.random.randrange(count), library),
            ("TOO_SHORT", count),
        )
    compare(
        "decode_dag_pb",
        block,
        outcome(kombilad.decode_dag_pb, block, cids=bytes),
        node_of(block, read) if fine else read,
    )
    if fine:
        node = kombilad.decode_dag_pb(bytearray(block))
        compare(
            "CIDs",
            block,
            [bytes(link["Hash"]) for link in node["Links"]],
            [link["Hash"] for link in node_of(block, read)["Links"]],
        )
    return fine


def main():
    count = int(sys.argv[1]) if len(sys.argv) > 1 else 10_000
    seed = int(sys.argv[2]) if len(sys.argv) > 2 else 1
    library = ctypes.CDLL(sys.argv[3] if len(sys.argv) > 3 else kombilad._native.__file__)
    source, fine = PbSource(seed), 0
    for number in range(count):
        node = source.node()
        if number % 5 > 1:
            node = source.changed_node(node)
        fine += compare_node(source, node, library)
    print(f"random_pb: {count} nodes of seed {seed} ({fine} of them valid): no difference")


if __name__ == "__main__":
    main()
