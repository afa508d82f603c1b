"""Writes files and folders as blocks, by the UnixFS and DAG-PB specifications."""

import collections
import struct

from .formats import DAG_PB, Block, car, cid_of, cid_v0, pb, pb_link, raw, varint

# The types of a message `Data`. RAW_DATA is the type of the leaves of old and of trickle layouts.
RAW_DATA, DIRECTORY, FILE, METADATA, SYMLINK, SHARD = range(6)
# The hash function of a shard, the number of its slots, and the bits of a hash.
MURMUR3, FANOUT = 0x22, 256
MASK = 2**64 - 1


class Profile(collections.namedtuple("Profile", "version raw_leaves chunk width")):
    """
    How a file is cut into blocks: the version of the CIDs, whether leaves are raw blocks, the size
    of a chunk in bytes, and the maximum number of links of a node.
    """

    __slots__ = ()


DEFAULT = Profile(0, False, 262_144, 174)
RAW_LEAVES = Profile(1, True, 262_144, 174)


class Node(collections.namedtuple("Node", "block size total links")):
    """
    A block, and the nodes that it links to, each after its name. `size` is how many bytes of a file
    the block stands for, or None. `total` is the Tsize of a link to the block: its length and the
    Tsizes of its links.
    """

    __slots__ = ()

    @property
    def cid(self):
        return self.block.cid


# Messages


def number_field(field, number):
    return varint(field << 3) + varint(number)


def content_field(field, content):
    return varint(field << 3 | 2) + varint(len(content)) + content


def time_message(seconds, nanoseconds=0):
    """Returns the message `UnixTime` of a time. It is before 1970 if the seconds are negative."""
    message = number_field(1, seconds % 2**64)
    return message + b"\x15" + struct.pack("<I", nanoseconds) if nanoseconds else message


def data_message(
    kind,
    content=None,
    filesize=None,
    blocksizes=(),
    hash_type=None,
    fanout=None,
    mode=None,
    mtime=None,
):
    """Returns a message `Data`. `mtime` is a tuple of seconds, or of seconds and nanoseconds."""
    message = number_field(1, kind)
    if content is not None:
        message += content_field(2, content)
    if filesize is not None:
        message += number_field(3, filesize)
    message += b"".join(number_field(4, size) for size in blocksizes)
    for field, number in (5, hash_type), (6, fanout), (7, mode):
        if number is not None:
            message += number_field(field, number)
    return message if mtime is None else message + content_field(8, time_message(*mtime))


def node(version, message, links=(), size=None):
    """Returns the node with these data and these links, which are pairs of a name and a node."""
    data = pb([pb_link(it.cid, name, it.total) for name, it in links], message)
    cid = cid_of(DAG_PB, data) if version else cid_v0(data)
    total = len(data) + sum(it.total for _, it in links)
    return Node(Block(cid, data), size, total, tuple(links))


# Files


def raw_leaf(chunk):
    return Node(raw(chunk), len(chunk), len(chunk), ())


def leaf(version, chunk, kind=FILE, **more):
    """Returns the node of a chunk. `more` has the mode and the time of a file that is one chunk."""
    message = data_message(kind, chunk or None, len(chunk), **more)
    return node(version, message, size=len(chunk))


def parent(version, parts, **more):
    """Returns the node above parts of a file."""
    sizes = [it.size for it in parts]
    message = data_message(FILE, None, sum(sizes), sizes, **more)
    return node(version, message, [(b"", it) for it in parts], sum(sizes))


def file_of(content, profile=DEFAULT, **more):
    """
    Returns the root of a file in the balanced layout. `more` has its mode and its time. They are in
    the root, which is a node above the leaf if the file is one raw leaf.
    """
    version, raw_leaves, size, width = profile
    chunks = [content[at : at + size] for at in range(0, len(content), size)] or [b""]
    level = [raw_leaf(it) if raw_leaves else leaf(version, it) for it in chunks]
    while len(level) > 1:
        level = [parent(version, level[at : at + width]) for at in range(0, len(level), width)]
    (root,) = level
    if not more:
        return root
    if root.links or raw_leaves:
        return parent(version, [it for _, it in root.links] or [root], **more)
    return leaf(version, content, **more)


# Folders


def symlink(target, version=0, **more):
    return node(version, data_message(SYMLINK, target, **more))


def folder(entries, version=0, **more):
    """Returns the plain folder with these entries, which are nodes by name."""
    return node(version, data_message(DIRECTORY, **more), sorted(entries.items()))


def rotated(number, bits):
    return (number << bits | number >> (64 - bits)) & MASK


def mixed(number):
    """Returns a number of 64 bits whose bits were spread, as the end of MurmurHash3 has it."""
    for factor in 0xFF51AFD7ED558CCD, 0xC4CEB9FE1A85EC53:
        number = (number ^ number >> 33) * factor & MASK
    return number ^ number >> 33


def murmur3(data):
    """Returns the hash of a name by murmur3-x64-64: eight bytes, the high one first."""
    c1, c2 = 0x87C37B91114253D5, 0x4CF5AD432745937F
    h1 = h2 = 0
    whole = len(data) - len(data) % 16
    for at in range(0, whole, 16):
        k1, k2 = struct.unpack_from("<QQ", data, at)
        h1 ^= rotated(k1 * c1 & MASK, 31) * c2 & MASK
        h1 = (rotated(h1, 27) + h2) * 5 + 0x52DCE729 & MASK
        h2 ^= rotated(k2 * c2 & MASK, 33) * c1 & MASK
        h2 = (rotated(h2, 31) + h1) * 5 + 0x38495AB5 & MASK
    k1, k2 = struct.unpack("<QQ", data[whole:].ljust(16, b"\0"))
    h1 ^= rotated(k1 * c1 & MASK, 31) * c2 & MASK
    h2 ^= rotated(k2 * c2 & MASK, 33) * c1 & MASK
    h1, h2 = h1 ^ len(data), h2 ^ len(data)
    h1 = h1 + h2 & MASK
    h2 = h2 + h1 & MASK
    return struct.pack(">Q", mixed(h1) + mixed(h2) & MASK)


def shard(entries, version=0, depth=0, **more):
    """
    Returns the shard with these entries, which are nodes by name, at a depth below the root of a
    sharded folder. The hash of each name has to lead to the shard.
    """
    slots = collections.defaultdict(dict)
    for name, it in entries.items():
        slots[murmur3(name)[depth]][name] = it
    links = []
    for slot, inside in sorted(slots.items()):
        if len(inside) == 1:
            ((name, it),) = inside.items()
            links.append((b"%02X" % slot + name, it))
        else:
            links.append((b"%02X" % slot, shard(inside, version, depth + 1)))
    bits = sum(1 << slot for slot in slots)
    field = bits.to_bytes((bits.bit_length() + 7) // 8, "big")
    message = data_message(SHARD, field, hash_type=MURMUR3, fanout=FANOUT, **more)
    return node(version, message, links)


# Blocks


def blocks_of(root, repeats=False):
    """
    Returns the blocks of a node and of all nodes below it, in the order of a walk: the root first,
    and depth first. A block that was met before is left out unless `repeats` is set.
    """
    found, seen, pending = [], set(), [root]
    while pending:
        it = pending.pop()
        if repeats or it.cid not in seen:
            seen.add(it.cid)
            found.append(it.block)
            pending += [child for _, child in reversed(it.links)]
    return found


def car_of(root, repeats=False):
    """Returns the CARv1 with this root and these blocks."""
    return car([root.cid], blocks_of(root, repeats))
