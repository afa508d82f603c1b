"""Reads files and folders from blocks, by the UnixFS and DAG-PB specifications.

A `Reader` verifies each block and checks everything that it reads. It shares no code with the
program, and none with the writer in `unixfs.py` except the hash of a name.
"""

import collections

from .formats import (
    BLAKE2B_256,
    DAG_PB,
    IDENTITY,
    RAW,
    SHA2_256,
    SHA2_512,
    V0,
    Cid,
    digest_by,
)
from .unixfs import DIRECTORY, FANOUT, FILE, MURMUR3, RAW_DATA, SHARD, SYMLINK, murmur3

COMPUTED = (IDENTITY, SHA2_256, SHA2_512, BLAKE2B_256)
# The wire types of Protocol Buffers.
NUMBER, CONTENT, FIXED32 = 0, 2, 5
# The longest digest of a CID, in bytes, and the depths of shards that a hash of a name leads to.
LONGEST_DIGEST, DEPTHS = 64, 8
# The names that no entry of a folder has.
NO_NAMES = (b"", b".", b"..")


class Fault(Exception):
    """What is wrong, as a word, and the CID of the block in which it was found."""

    def __init__(self, kind, cid):
        super().__init__(f"{kind}: {cid}")
        self.kind, self.cid = kind, cid


class Invalid(Exception):
    """What is wrong with bytes."""


class Link(collections.namedtuple("Link", "cid name tsize")):
    __slots__ = ()


class Message(
    collections.namedtuple(
        "Message", "kind content filesize blocksizes hash_type fanout mode mtime"
    )
):
    """A message `Data`. A field that is missing is None."""

    __slots__ = ()


class Part(collections.namedtuple("Part", "head children size")):
    """
    A block of a file: the bytes that it contains, its links with the size of each, and how many
    bytes it stands for.
    """

    __slots__ = ()


# CIDs


def shortest_varint(data, at):
    """Returns the number of a multiformats varint, and where it ends."""
    number = 0
    for place, byte in enumerate(data[at : at + 10]):
        number |= (byte & 127) << (7 * place)
        if byte < 128:
            if (byte == 0 and place) or number >= 2**64:
                break
            return number, at + place + 1
    raise Invalid("Cid")


def cid_parts(cid):
    """Returns the codec, the hash function and the digest of a CID."""
    if cid.startswith(V0):
        codec, function, size, at = DAG_PB, SHA2_256, 32, 2
    else:
        version, at = shortest_varint(cid, 0)
        if version != 1:
            raise Invalid("Cid")
        codec, at = shortest_varint(cid, at)
        function, at = shortest_varint(cid, at)
        size, at = shortest_varint(cid, at)
    if size > LONGEST_DIGEST or len(cid) != at + size:
        raise Invalid("Cid")
    return codec, function, cid[at:]


# Protocol Buffers


def wire_varint(data, at):
    """
    Returns the number of a varint of Protocol Buffers, which may have more bytes than necessary,
    and where it ends.
    """
    number = 0
    for place, byte in enumerate(data[at : at + 10]):
        number |= (byte & 127) << (7 * place)
        if byte < 128:
            if number >= 2**64:
                break
            return number, at + place + 1
    raise Invalid("Varint")


def fields_of(data):
    """Returns the number and the wire type of each field of a message, with its value."""
    fields, at = [], 0
    while at < len(data):
        key, at = wire_varint(data, at)
        field, wire = key >> 3, key & 7
        if wire == NUMBER:
            value, at = wire_varint(data, at)
        elif wire == CONTENT:
            size, at = wire_varint(data, at)
            value, at = data[at : at + size], at + size
        elif wire == FIXED32:
            value, at = int.from_bytes(data[at : at + 4], "little"), at + 4
        else:
            raise Invalid("UnknownField")
        if at > len(data):
            raise Invalid("End")
        fields.append((field, wire, value))
    return fields


def message_of(data, wires, repeated=None):
    """
    Returns the fields of a message by number. `wires` has the wire type of each field that it may
    have. They are in the order of their numbers, and at most once, except one that is repeated.
    """
    found, last = {}, 0
    for field, wire, value in fields_of(data):
        if wires.get(field) != wire:
            raise Invalid("UnknownField")
        if field < last or (field == last and field != repeated):
            raise Invalid("FieldOrder")
        last = field
        if field == repeated:
            found.setdefault(field, []).append(value)
        else:
            found[field] = value
    return found


def read_time(data):
    """Returns the seconds and the nanoseconds of a message `UnixTime`."""
    fields = message_of(data, {1: NUMBER, 2: FIXED32})
    if 1 not in fields or not 1 <= fields.get(2, 1) < 10**9:
        raise Invalid("Time")
    seconds = fields[1]
    return seconds - 2**64 if seconds >= 2**63 else seconds, fields.get(2, 0)


def read_data(data):
    """Returns a message `Data`."""
    wires = {field: NUMBER for field in range(1, 8)}
    wires.update({2: CONTENT, 8: CONTENT})
    fields = message_of(data, wires, repeated=4)
    if 1 not in fields or fields[1] > SHARD:
        raise Invalid("Type")
    if fields.get(7, 0) >= 2**32:
        raise Invalid("Mode")
    if 8 in fields:
        fields[8] = read_time(fields[8])
    fields.setdefault(4, [])
    return Message(*(fields.get(field) for field in range(1, 9)))


def read_link(data):
    fields = message_of(data, {1: CONTENT, 2: CONTENT, 3: NUMBER})
    if 1 not in fields:
        raise Invalid("NoHash")
    cid_parts(fields[1])
    name = fields.get(2, b"")
    try:
        name.decode()
    except UnicodeDecodeError as error:
        raise Invalid("Utf8") from error
    return Link(Cid(fields[1]), name, fields.get(3))


def read_node(data):
    """
    Returns the links and the data of a node of DAG-PB, or None as the data. The data are before all
    links or after them.
    """
    links, content, closed = [], None, False
    for field, wire, value in fields_of(data):
        if wire != CONTENT or field not in (1, 2):
            raise Invalid("UnknownField")
        if closed or (field == 1 and content is not None):
            raise Invalid("FieldOrder")
        if field == 1:
            content, closed = value, bool(links)
        else:
            links.append(read_link(value))
    return links, content


# Files and folders


class Reader:
    """Reads files and folders from a dict of blocks by CID. Each method may raise `Fault`."""

    def __init__(self, blocks):
        self.blocks = blocks

    def block(self, cid):
        """Returns the block of a CID, whose digest is right."""
        _, function, digest = cid_parts(cid)
        data = digest if function == IDENTITY else self.blocks.get(cid)
        if data is None:
            raise Fault("Missing", cid)
        if function not in COMPUTED:
            raise Fault("HashFunction", cid)
        if digest_by(function, data) != digest:
            raise Fault("Digest", cid)
        return data

    def node(self, cid):
        """Returns the links of a node of UnixFS, and its message."""
        data = self.block(cid)
        if cid_parts(cid)[0] != DAG_PB:
            raise Fault("Codec", cid)
        try:
            links, content = read_node(data)
            if content is None:
                raise Invalid("NoData")
            return links, read_data(content)
        except Invalid as why:
            raise Fault(str(why), cid) from why

    def part(self, cid):
        """Returns the part of a file that is the block of a CID."""
        if cid_parts(cid)[0] == RAW:
            data = self.block(cid)
            return Part(data, [], len(data))
        links, message = self.node(cid)
        if message.kind not in (FILE, RAW_DATA):
            raise Fault("NotAFile", cid)
        if len(links) != len(message.blocksizes):
            raise Fault("SizeCount", cid)
        head = message.content or b""
        size = len(head) + sum(message.blocksizes)
        if size >= 2**64:
            raise Fault("Size", cid)
        if message.filesize not in (None, size):
            raise Fault("Filesize", cid)
        return Part(head, list(zip((it.cid for it in links), message.blocksizes)), size)

    def parts(self, cid):
        """
        Yields the CID, the offset and the part of each block of a file, in the order of a walk. A
        part has the size that its parent says.
        """
        pending, offset = [(cid, None)], 0
        while pending:
            cid, said = pending.pop()
            part = self.part(cid)
            if said not in (None, part.size):
                raise Fault("WrongSize", cid)
            yield cid, offset, part
            offset += len(part.head)
            pending += reversed(part.children)

    def pieces(self, cid):
        """Yields the bytes of a file, one block at a time."""
        for _, _, part in self.parts(cid):
            yield part.head

    def file(self, cid):
        """Returns the bytes of a file."""
        return b"".join(self.pieces(cid))

    def checked_name(self, cid, name):
        if name in NO_NAMES or b"/" in name or b"\0" in name:
            raise Fault("InvalidName", cid)
        return name

    def plain_entries(self, cid, links):
        """Returns the entries of a plain folder, in the order of the bytes of their names."""
        names = [self.checked_name(cid, it.name) for it in links]
        if any(one >= other for one, other in zip(names, names[1:])):
            raise Fault("NameOrder", cid)
        return [(it.name, it.cid) for it in links]

    def slots(self, cid, prefix):
        """
        Returns the slots of a shard: pairs of a name, which is empty for a shard below it, and a
        CID. `prefix` has the slots that lead to the shard.
        """
        links, message = self.node(cid)
        if message.kind != SHARD:
            raise Fault("NotAShard", cid)
        if (message.hash_type, message.fanout) != (MURMUR3, FANOUT):
            raise Fault("ShardKind", cid)
        found, last = {}, -1
        for link in links:
            digits, name = link.name[:2], link.name[2:]
            slot = next((it for it in range(last + 1, FANOUT) if digits == b"%02X" % it), None)
            if slot is None:
                raise Fault("Slot", cid)
            last = slot
            if not name and len(prefix) + 1 == DEPTHS:
                raise Fault("Depth", cid)
            if name and not murmur3(self.checked_name(cid, name)).startswith(
                prefix + bytes([slot])
            ):
                raise Fault("WrongSlot", cid)
            found[slot] = name, link.cid
        bits = sum(1 << slot for slot in found)
        if (message.content or b"") != bits.to_bytes((bits.bit_length() + 7) // 8, "big"):
            raise Fault("BitField", cid)
        return found

    def shards(self, cid, prefix=b""):
        """Yields the CID and the slots of each shard of a folder, in the order of a walk."""
        slots = self.slots(cid, prefix)
        yield cid, slots
        for slot, (name, below) in slots.items():
            if not name:
                yield from self.shards(below, prefix + bytes([slot]))

    def shard_entries(self, cid, prefix=b""):
        """Returns the entries of a sharded folder, in the order of the hashes of their names."""
        entries = []
        for slot, (name, target) in self.slots(cid, prefix).items():
            entries += (
                [(name, target)] if name else self.shard_entries(target, prefix + bytes([slot]))
            )
        return entries

    def entries(self, cid):
        """Returns the name and the CID of each entry of a folder."""
        links, message = self.node(cid)
        if message.kind == SHARD:
            return self.shard_entries(cid)
        if message.kind != DIRECTORY:
            raise Fault("NotAFolder", cid)
        return self.plain_entries(cid, links)

    def steps(self, cid, name):
        """
        Yields the CID of each block that leads from a folder to an entry, and last the CID of the
        entry. Raises `Fault` if there is no such entry.
        """
        links, message = self.node(cid)
        yield cid
        if message.kind == DIRECTORY:
            entries = dict(self.plain_entries(cid, links))
            if name not in entries:
                raise Fault("NoEntry", cid)
            yield entries[name]
            return
        if message.kind != SHARD:
            raise Fault("NotAFolder", cid)
        digest = murmur3(name)
        for depth in range(DEPTHS):
            label, target = self.slots(cid, digest[:depth]).get(digest[depth], (None, None))
            if label not in (b"", name):
                raise Fault("NoEntry", cid)
            yield target
            if label:
                return
            cid = target

    def look_up(self, cid, name):
        """Returns the CID of an entry of a folder."""
        *_, target = self.steps(cid, name)
        return target

    def at(self, cid, path):
        """Returns the CID at a path, which is a list of names. Symbolic links are not followed."""
        for name in path:
            cid = self.look_up(cid, name)
        return cid

    def kind(self, cid):
        """
        Returns `file` and the size of the file, `folder` and None, or `link` and the target, as the
        block of a CID has it.
        """
        if cid_parts(cid)[0] == RAW:
            return "file", len(self.block(cid))
        _, message = self.node(cid)
        if message.kind in (FILE, RAW_DATA):
            return "file", self.part(cid).size
        if message.kind in (DIRECTORY, SHARD):
            return "folder", None
        if message.kind == SYMLINK:
            return "link", message.content or b""
        raise Fault("Type", cid)
