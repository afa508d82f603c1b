"""Nodes that are not parts of a file, and nodes that are not folders.

Each is the root of blocks that are all there and are those of their CIDs, with the kind of fault
that `unixfs_reader.py` finds in it.
"""

from .unixfs import (
    DIRECTORY,
    FANOUT,
    FILE,
    MURMUR3,
    SHARD,
    data_message,
    file_of,
    folder,
    murmur3,
    node,
    number_field,
    raw_leaf,
    symlink,
)


def file_node(parts, sizes, content=None, filesize=None):
    """Returns a node of a file whose message has any sizes."""
    message = data_message(FILE, content, filesize, sizes)
    return node(1, message, [(b"", it) for it in parts])


A, B = raw_leaf(b"aa"), raw_leaf(b"bbb")
# Its message gives its leaf a byte too many, which is found at the leaf.
SHORT = file_node([A], [3], filesize=3)

# Nodes that are not parts of a file, with the kind of the fault.
BAD_FILES = [
    ("SizeCount", file_node([A, B], [2], filesize=2)),
    ("SizeCount", file_node([A], [2, 0], filesize=2)),
    ("Filesize", file_node([A, B], [2, 3], filesize=6)),
    ("Filesize", file_node([], [], b"aa", 1)),
    ("Size", file_node([A, A], [2**63, 2**63])),
    ("NotAFile", folder({})),
    ("NotAFile", symlink(b"a")),
    ("NoData", node(1, None, [(b"", A)])),
    ("Type", node(1, number_field(1, 6))),
    ("Type", node(1, b"")),
    ("Mode", node(1, data_message(FILE, mode=2**32))),
    ("Time", node(1, data_message(FILE, mtime=(0, 10**9)))),
    ("FieldOrder", node(1, data_message(FILE, b"a") + number_field(1, FILE))),
    ("FieldOrder", node(1, number_field(3, 0) + number_field(1, FILE))),
    ("FieldOrder", node(1, data_message(FILE, filesize=0) + number_field(3, 0))),
    ("UnknownField", node(1, data_message(FILE) + number_field(9, 0))),
    ("UnknownField", node(1, number_field(1, FILE) + b"\x22\x01\x01")),
    ("End", node(1, data_message(FILE, b"ab")[:-1])),
    ("Varint", node(1, b"\x08" + b"\x80" * 10)),
]


def shard_node(slots, field, **more):
    """Returns a shard whose links and message may be wrong."""
    message = data_message(SHARD, field, **{"hash_type": MURMUR3, "fanout": FANOUT, **more})
    return node(1, message, [(name, A) for name in slots])


# A name, and the slot to which its hash leads, whose digits have letters.
NAME = b"non_sharded_dir"
SLOT = murmur3(NAME)[0]
LABEL = b"%02X" % SLOT + NAME
FIELD = (1 << SLOT).to_bytes(SLOT // 8 + 1, "big")
BAD_FOLDERS = [
    ("NotAFolder", file_of(b"a")),
    ("NotAFolder", symlink(b"a")),
    *(
        ("InvalidName", node(1, data_message(DIRECTORY), [(it, A)]))
        for it in (b"", b".", b"..", b"a/b", b"a\0")
    ),
    ("NameOrder", node(1, data_message(DIRECTORY), [(b"b", A), (b"a", A)])),
    ("NameOrder", node(1, data_message(DIRECTORY), [(b"a", A), (b"a", B)])),
    ("Utf8", node(1, data_message(DIRECTORY), [(b"\xff", A)])),
    ("FieldOrder", node(1, number_field(7, 0o755) + number_field(1, DIRECTORY))),
    ("FieldOrder", node(1, data_message(DIRECTORY) + number_field(1, DIRECTORY))),
    ("UnknownField", node(1, data_message(DIRECTORY) + number_field(9, 0))),
    ("NoData", node(1, None, [(b"a", A)])),
    ("ShardKind", shard_node([LABEL], FIELD, hash_type=0x23)),
    ("ShardKind", shard_node([LABEL], FIELD, fanout=16)),
    ("ShardKind", shard_node([LABEL], FIELD, fanout=None)),
    ("BitField", shard_node([LABEL], FIELD + b"\0")),
    ("BitField", shard_node([LABEL], b"\0" + FIELD)),
    ("BitField", shard_node([LABEL], None)),
    ("Slot", shard_node([LABEL, LABEL], FIELD)),
    ("Slot", shard_node([LABEL.lower()], FIELD)),
    ("Slot", shard_node([b"5"], FIELD)),
    ("WrongSlot", shard_node([b"%02X" % (SLOT ^ 1) + NAME], FIELD)),
    ("InvalidName", shard_node([LABEL[:2] + b".."], FIELD)),
]
