"""Reads random blocks, some with floats, and blocks that are changed in a few places. Compares the
library with a reader that shares no code with it.

usage: python random_blocks.py [COUNT [SEED [LIBRARY]]]

The entries of kombilad_tape are compared through ctypes. They are those of LIBRARY, or of the
library in the package.
"""

import base64
import ctypes
import json
import random
import struct
import sys

import kombilad
import reader

BASES = {
    "base16": "f",
    "base32": "b",
    "base32upper": "B",
    "base36": "k",
    "base58btc": "z",
    "base64url": "u",
}
CODES = [0x55, 0x70, 0x71, 0x12, 0, 1, 127, 128, 0x300001, 2**63, 2**64 - 1]
LENGTHS = [0, 1, 20, 32, 32, 32, 32, 64]
# Segments that lead to nothing, except by chance.
OTHER_SEGMENTS = [b"0", b"1", b"-1", b"+", b"+-1", b"1_0", b" 1", b"0x1", b"1.0", b".", b"a", b"\0"]
OTHER_SEGMENTS += ["é".encode(), "१".encode(), b"%d" % 2**64, b"%d" % (2**64 + 1), b"9" * 99]
# The number in places to which no call writes.
UNWRITTEN = 77


def varint(number):
    encoded = bytearray()
    while number > 127:
        encoded.append(number & 127 | 128)
        number >>= 7
    return bytes(encoded) + bytes([number])


class Source:
    def __init__(self, seed):
        self.random = random.Random(seed)
        self.floats = 0.0

    def cid(self):
        choose = self.random
        if choose.random() < 0.15:
            return b"\x12\x20" + choose.randbytes(32)
        length = choose.choice(LENGTHS)
        return (
            b"\x01"
            + varint(choose.choice(CODES))
            + varint(choose.choice(CODES))
            + bytes([length])
            + choose.randbytes(length)
        )

    def head(self, major, argument):
        if argument < 24:
            return bytes([major << 5 | argument])
        power = next(it for it in range(4) if argument < 1 << (8 << it))
        return bytes([major << 5 | 24 + power]) + argument.to_bytes(1 << power, "big")

    def integer(self):
        return self.random.getrandbits(self.random.choice([4, 5, 8, 16, 32, 53, 64]))

    def text(self):
        letters = self.random.choices(
            "abcdefghijö東🙂 ", k=self.random.choice([0, 1, 1, 2, 3, 9, 30])
        )
        return "".join(letters).encode()

    def block(self, depth):
        choose = self.random
        kind = choose.randrange(6 if depth == 0 else 10)
        if kind == 0:
            if choose.random() < self.floats:
                return b"\xfb" + struct.pack(
                    ">d", choose.choice([0.0, -0.0, 1.5, 1e308, 5e-324, choose.random()])
                )
            return bytes([choose.choice([0xF4, 0xF5, 0xF6])])
        if kind == 1:
            return self.head(choose.randrange(2), self.integer())
        if kind == 2:
            content = choose.randbytes(choose.choice([0, 1, 5, 24, 60]))
            return self.head(2, len(content)) + content
        if kind == 3:
            content = self.text()
            return self.head(3, len(content)) + content
        if kind in (4, 5):
            cid = self.cid()
            return b"\xd8\x2a" + self.head(2, len(cid) + 1) + b"\0" + cid
        count = choose.choice([0, 1, 2, 3, 5, 8, 24])
        if kind in (6, 7):
            return self.head(4, count) + b"".join(self.block(depth - 1) for _ in range(count))
        keys = list({self.text() for _ in range(count)})
        if choose.random() < 0.6:
            keys.sort(key=lambda key: (len(key), key))
        return self.head(5, len(keys)) + b"".join(
            self.head(3, len(key)) + key + self.block(depth - 1) for key in keys
        )

    def changed(self, block):
        choose, data = self.random, bytearray(block)
        for _ in range(choose.choice([1, 1, 1, 2, 4])):
            at = choose.randrange(len(data) + 1)
            way = choose.randrange(7)
            if way == 0:
                del data[at:]
            elif way == 1:
                data[at:at] = choose.randbytes(choose.choice([1, 2, 9]))
            elif way == 2 and at < len(data):
                data[at] = choose.randrange(256)
            elif way == 3 and at < len(data):
                data[at] ^= 1 << choose.randrange(8)
            elif way == 4:
                del data[at : at + choose.choice([1, 2])]
            elif way == 5:
                other = choose.randrange(len(data) + 1)
                data[at:at] = data[other : other + choose.choice([1, 3, 40])]
            elif at < len(data):
                data[at] = choose.choice(
                    [
                        0x18,
                        0x19,
                        0x1B,
                        0x40,
                        0x58,
                        0x60,
                        0x80,
                        0x9F,
                        0xA0,
                        0xC1,
                        0xD8,
                        0xF7,
                        0xF9,
                        0xFB,
                        0xFF,
                    ]
                )
        return bytes(data)


def name_of(rejected):
    """Returns the name of a reader's error in `kombilad.h`."""
    name = rejected.name
    if name.startswith("LINK "):
        return "LINK_" + name[5:]
    return name if name.startswith("TOO_") else "BLOCK_" + name


def outcome(call, *arguments, **named):
    """Returns the result of a call, or the name of its error, and its offset if it has one."""
    try:
        return call(*arguments, **named)
    except kombilad.KombiladError as error:
        return error.name if error.offset is None else (error.name, error.offset)


class Entry(ctypes.Structure):
    _fields_ = [("kind", ctypes.c_uint32), ("len", ctypes.c_uint32), ("value", ctypes.c_uint64)]


def tape(block, levels, values, count, library):
    """
    Calls kombilad_tape with a buffer of `count` entries. Returns the entries, or the name of its
    error and the offset.
    """
    entries, needed, offset = (
        (Entry * (count + 1))(),
        ctypes.c_size_t(UNWRITTEN),
        ctypes.c_size_t(UNWRITTEN),
    )
    entries[count].kind = UNWRITTEN
    sizes = [ctypes.c_size_t(it) for it in (len(block), levels, values)]
    status = library.kombilad_tape(
        block, *sizes, entries, ctypes.c_size_t(count), ctypes.byref(needed), ctypes.byref(offset)
    )
    found = [(it.kind, it.len, it.value) for it in entries]
    untouched = [(0, 0, 0)] * count + [(UNWRITTEN, 0, 0)]
    name = kombilad.Status(status).name
    if status == kombilad.Status.OK and (offset.value, found[needed.value :]) == (
        UNWRITTEN,
        untouched[needed.value :],
    ):
        return found[: needed.value]
    if status == kombilad.Status.TOO_SHORT and (offset.value, found) == (UNWRITTEN, untouched):
        return name, needed.value
    return (
        (name, offset.value)
        if (needed.value, found) == (UNWRITTEN, untouched)
        else (name, "written", needed.value, offset.value, found)
    )


def expected(block, levels, values, kind):
    try:
        return reader.read(block, levels, values, kind)
    except reader.Rejected as why:
        return name_of(why), why.offset


def compare(what, given, ours, theirs):
    if ours != theirs:
        sys.exit(
            f"random_blocks: {what} of {given.hex()}: the library says {ours!r}, the reader {theirs!r}"
        )


def compare_tape(source, what, block, levels, values, read, library):
    """Compares the tapes in a buffer that is long enough, and in one that is too short."""
    fine = not isinstance(read, tuple)
    count = len(read.tape) if fine else source.random.randrange(3)
    compare(
        "tape " + what,
        block,
        tape(block, levels, values, count + source.random.randrange(2), library),
        read.tape if fine else read,
    )
    if fine:
        compare(
            "tape, too short, " + what,
            block,
            tape(block, levels, values, source.random.randrange(count), library),
            ("TOO_SHORT", count),
        )


def random_path(source, block, read):
    """Returns a path, of which most segments lead somewhere."""
    choose, at, parts = source.random, 0, []
    while choose.random() < 0.9:
        found = reader.children(block, read.tape, at)
        named = [(key, it) for key, it in found if key is None or key and b"/" not in key]
        if not named or choose.random() < 0.1:
            parts.append(choose.choice(OTHER_SEGMENTS))
            if choose.random() < 0.5:
                break
            continue
        key, at = choose.choice(named)
        index = b"+" * (choose.random() < 0.1) + b"0" * choose.choice([0, 0, 0, 3])
        parts.append(index + b"%d" % [it for _, it in found].index(at) if key is None else key)
    return b"".join(
        b"/" * choose.choice([0, 1, 1, 1, 2]) * (at > 0) + it for at, it in enumerate(parts)
    )


def found_at(block, levels, values, path, library):
    """Calls kombilad_block_at. Returns what it wrote, or the name of its error and the place."""
    value, rest, place = (
        (ctypes.c_size_t * 2)(UNWRITTEN, UNWRITTEN),
        ctypes.c_size_t(UNWRITTEN),
        ctypes.c_size_t(UNWRITTEN),
    )
    sizes = [ctypes.c_size_t(it) for it in (len(block), levels, values)]
    status = library.kombilad_block_at(
        block,
        *sizes,
        path,
        ctypes.c_size_t(len(path)),
        value,
        ctypes.byref(rest),
        ctypes.byref(place),
    )
    name, written = kombilad.Status(status).name, (*value, rest.value)
    if status == kombilad.Status.OK and place.value == UNWRITTEN:
        return written
    if status != kombilad.Status.OK and written == (UNWRITTEN,) * 3:
        return name, place.value
    return name, "written", written, place.value


def compare_paths(source, what, block, levels, values, read, library):
    for _ in range(3):
        fine = not isinstance(read, tuple)
        path = random_path(source, block, read) if fine else b"a"
        try:
            (begin, end), rest = reader.at_path(read, path) if fine else ((0, 0), 0)
            spot = (begin, end - begin, rest) if fine else read
        except reader.Rejected as why:
            spot = f"PATH_{why.name}", why.offset
        named = f"at {path!r} {what}"
        compare(named, block, found_at(block, levels, values, path, library), spot)
        got = outcome(kombilad.get, block, path.decode(), levels=levels, values=values)
        if len(spot) == 3:
            part = kombilad.decode_dag_cbor(block[begin:end]), path[rest:].decode()
            compare("get " + named, block, repr(got), repr(part))
        else:
            compare("get " + named, block, got, spot[0] if fine else spot)


def as_json(value):
    """Returns the value that `json` reads from the DAG-JSON of a value."""
    if isinstance(value, bytes):
        return {"/": {"bytes": base64.b64encode(value).decode().rstrip("=")}}
    if isinstance(value, kombilad.Cid):
        return {"/": str(value)}
    if isinstance(value, list):
        return [as_json(it) for it in value]
    if isinstance(value, dict):
        return {key: as_json(value[key]) for key in sorted(value, key=str.encode)}
    return value


def compare_block(source, block, library):
    levels, values = source.random.choice(
        [(64, 10**6), (64, 10**6), (64, 10**6), (2, 10**6), (64, 7), (0, 3), (3, 0)]
    )
    limits = {"levels": levels, "values": values}
    what = f"within {levels} and {values}"
    read = expected(block, levels, values, reader.ReadWithFloats)
    fine = not isinstance(read, tuple)
    compare(
        "check " + what, block, outcome(kombilad.check, block, **limits), None if fine else read
    )
    compare(
        "count_links " + what,
        block,
        outcome(kombilad.count_links, block, **limits),
        len(read.links) if fine else read,
    )
    links = outcome(kombilad.links, block, **limits)
    compare(
        "links " + what,
        block,
        [bytes(cid) for cid in links] if isinstance(links, list) else links,
        read.links if fine else read,
    )
    compare(
        "link_positions " + what,
        block,
        outcome(kombilad.link_positions, block, **limits),
        read.places if fine else read,
    )
    compare(
        "is_canonical " + what,
        block,
        outcome(kombilad.is_canonical, block, **limits),
        read.canonical == block if fine else read,
    )
    compare_tape(source, what, block, levels, values, read, library)
    compare_paths(source, what, block, levels, values, read, library)
    compare(
        "canonicalize " + what,
        block,
        outcome(kombilad.canonicalize, block, **limits),
        read.canonical if fine else read,
    )
    text = outcome(kombilad.to_json, block, **limits)
    if fine and isinstance(text, str):
        value = as_json(kombilad.decode_dag_cbor(block))
        compare("to_json", block, repr(json.loads(text)), repr(value))
        compare("from_json of " + text, block, kombilad.from_json(text), read.canonical)
    else:
        reserved = fine and text[0] == "JSON_RESERVED_MAP" and b"\x61/" in block
        compare("to_json " + what, block, text, text if reserved else read)
    return fine


def compare_cid(source):
    cid = source.cid()
    if source.random.random() < 0.5:
        cid = source.changed(cid)
    try:
        parts = reader.cid_parts(cid)
    except reader.Rejected as why:
        compare("Cid", cid, outcome(kombilad.Cid, cid), "CID_" + why.name)
        return
    ours = kombilad.Cid(cid)
    compare("parts", cid, (ours.version, ours.codec, ours.hash_code, ours.digest), parts)
    base = source.random.choice(list(BASES)) if parts[0] else "base58btc"
    text = reader.cid_text(cid, BASES[base])
    compare("to_text in " + base, cid, ours.to_text(base), text)
    compare("Cid of " + text, cid, bytes(kombilad.Cid(text)), cid)
    at = source.random.randrange(len(text))
    other = text[:at] + source.random.choice("abc019zZ-_=ö/") + text[at + 1 :]
    read = outcome(kombilad.Cid, other)
    if isinstance(read, kombilad.Cid):
        data = bytes(read)
        compare("a changed text", data, reader.cid_text(data, other[0]), other)


def main():
    count = int(sys.argv[1]) if len(sys.argv) > 1 else 10_000
    seed = int(sys.argv[2]) if len(sys.argv) > 2 else 1
    library = ctypes.CDLL(sys.argv[3] if len(sys.argv) > 3 else kombilad._native.__file__)
    source, fine = Source(seed), 0
    for number in range(count):
        source.floats = 0.3 if number % 3 == 0 else 0.0
        block = source.block(source.random.choice([0, 1, 2, 3]))
        if number % 5 > 1:
            block = source.changed(block)
        fine += compare_block(source, block, library)
        compare_cid(source)
    print(
        f"random_blocks: {count} blocks of seed {seed} ({fine} of them valid) and as many CIDs: no difference"
    )


if __name__ == "__main__":
    main()
