"""Writes folders of UnixFS as a CAR for the tests of the package for JavaScript.

usage: python folder_cases.py FOLDER      with the top of the repository on PYTHONPATH

FOLDER/blocks.car has all blocks, by an independent writer. FOLDER/cases.json has:

- folders: the root of each, the CIDs of its blocks in the order of a walk, and its entries in this
  order, each with its name, CID and Tsize
- paths: a root, a path and the CID there
- missing: a root, a path without an entry, the path up to the missing name, and the folder's CID
- stopped: a root, a path, and the code and the CID of the error there
- faults: the root of a folder, the code of its error, the CID of the block, and the invalid link
- nodes: a CID, and what its block says
- damaged: a CID, and the code of the error of its block
"""

import json
import pathlib
import sys

from tests.ipld.bad_unixfs import BAD_FILES, BAD_FOLDERS, NAME, SLOT, A, shard_node
from tests.ipld.formats import DAG_PB, Block, car, cid_of, pb, pb_link
from tests.ipld.unixfs import (
    DIRECTORY,
    FANOUT,
    METADATA,
    MURMUR3,
    RAW_DATA,
    SHARD,
    Node,
    Profile,
    data_message,
    file_of,
    folder,
    leaf,
    node,
    raw_leaf,
    shard,
    symlink,
)

NAMES = ["a", "b c", "ä", "日本", "\U0001f4c1", "\ufeffmark", "%2F", "__proto__", "x" * 255]
MANY = [*NAMES, *(f"file {at}" for at in range(3_000))]
PROFILE = Profile(1, True, 1_000, 3)

CODES = {
    "BitField": "FOLDER_BIT_FIELD",
    "InvalidName": "FOLDER_INVALID_NAME",
    "NameOrder": "FOLDER_NAME_ORDER",
    "NoData": "FILE_NO_DATA",
    "NotAFolder": "FOLDER_NOT_FOLDER",
    "UnknownField": "UNIXFS_UNKNOWN_FIELD",
    "Utf8": "PB_UTF8",
}
# The codes of the kinds that have several, in the order of BAD_FOLDERS.
SEVERAL = {
    "FieldOrder": ["UNIXFS_NO_TYPE", "UNIXFS_FIELD_ORDER"],
    "ShardKind": ["FOLDER_HASH_FUNCTION", "FOLDER_FANOUT", "FOLDER_FANOUT"],
    "Slot": ["FOLDER_SLOT_ORDER", "FOLDER_INVALID_SLOT", "FOLDER_INVALID_SLOT"],
}
# The codes of errors with the index of a link, which is that of the last link.
OF_LINKS = [
    f"FOLDER_{it}"
    for it in ("INVALID_NAME", "NAME_ORDER", "INVALID_SLOT", "SLOT_ORDER", "WRONG_SLOT")
]
# The codes of the nodes in BAD_FILES that are not nodes of UnixFS, in their order.
DAMAGE = {
    "End": ["UNIXFS_END"],
    "FieldOrder": ["UNIXFS_FIELD_ORDER", "UNIXFS_NO_TYPE", "UNIXFS_FIELD_ORDER"],
    "Mode": ["UNIXFS_MODE_TOO_LARGE"],
    "NoData": ["FILE_NO_DATA"],
    "Time": ["UNIXFS_NANOSECONDS"],
    "Type": ["UNIXFS_UNKNOWN_TYPE", "UNIXFS_NO_TYPE"],
    "UnknownField": ["UNIXFS_UNKNOWN_FIELD", "UNIXFS_UNKNOWN_FIELD"],
    "Varint": ["UNIXFS_VARINT_TOO_LARGE"],
}


def in_json(number):
    """Returns a number or None, or the text of a number that a double doesn't hold."""
    return number if number is None or abs(number) < 2**53 else str(number)


def field_of(slot):
    """Returns the bit field of a shard with one link."""
    return (1 << slot).to_bytes(slot // 8 + 1, "big")


def above(slot, below):
    """Returns a shard with one link, to a shard below it."""
    message = data_message(SHARD, field_of(slot), hash_type=MURMUR3, fanout=FANOUT)
    return node(1, message, [(b"%02X" % slot, below)])


def listed(root, is_sharded):
    """Returns the nodes of a folder's blocks in the order of a walk, and its entries."""
    if not is_sharded:
        return [root], [[name.decode(), str(it.cid), it.total] for name, it in root.links]
    blocks = [root]
    entries = [[it[0][2:].decode(), it[1]] for it in root.links if len(it[0]) > 2]
    entries = [[name, str(it.cid), it.total] for name, it in entries]
    for name, below in root.links:
        if len(name) == 2:
            more, found = listed(below, True)
            blocks += more
            entries += found
    return blocks, entries


def without_sizes(names):
    """Returns a plain folder whose links state no size, or one that is 2^53 or more."""
    links = [pb_link(A.cid, name.encode(), size) for name, size in names.items()]
    data = pb(links, data_message(DIRECTORY))
    return Node(Block(cid_of(DAG_PB, data), data), None, len(data), ((b"", A),))


def all_nodes(nodes):
    """Returns the blocks of nodes and of all nodes below them by CID."""
    found, pending = {}, list(nodes)
    while pending:
        it = pending.pop()
        if it.cid not in found:
            found[it.cid] = it.block.data
            pending += [below for _, below in it.links]
    return found


def main():
    out = pathlib.Path(sys.argv[1])
    out.mkdir(parents=True)
    link = symlink(b"many")
    long = file_of(bytes(5_000), PROFILE)
    many = shard({it.encode(): raw_leaf(it.encode()) for it in MANY}, 1)
    plain = folder({it.encode(): raw_leaf(it.encode()) for it in NAMES})
    inside = folder({b"many": many, b"plain": plain, b"link": link}, 1)
    few = shard({b"inside": inside, b"file": long, b"raw": A})
    root = folder({b"few": few, b"empty": folder({}), b"link": link, b"long": long})
    empty_shard = shard({})
    sizes = {"large": 2**53, "largest": 2**64 - 1, "none": None, "safe": 2**53 - 1, "zero": 0}
    sized = without_sizes(sizes)

    folders = []
    for it, is_sharded in [
        (root, False),
        (plain, False),
        (folder({}), False),
        (many, True),
        (few, True),
        (empty_shard, True),
    ]:
        blocks, entries = listed(it, is_sharded)
        folders.append([str(it.cid), [str(below.cid) for below in blocks], entries])
    entries = [[name, str(A.cid), in_json(size)] for name, size in sizes.items()]
    folders.append([str(sized.cid), [str(sized.cid)], entries])

    paths = [
        [root, "few", few],
        [root, "few/inside", inside],
        [root, "/few", few],
        [root, "few/", few],
        [root, "//few///inside//", inside],
        [root, "few/inside/many/file 7", raw_leaf(b"file 7")],
        [root, "few/inside/link", link],
        [root, "few/file", long],
        [root, "link", link],
        [inside, "link", link],
        *([many, it, raw_leaf(it.encode())] for it in MANY[:: len(MANY) // 100]),
        *([plain, it, raw_leaf(it.encode())] for it in NAMES),
        [inside, "plain/" + NAMES[3], raw_leaf(NAMES[3].encode())],
        *([sized, it, A] for it in sizes),
    ]
    missing = [
        [root, "no", "no", root],
        [root, "few/no/inside", "few/no", few],
        [root, "few/inside/many/no", "few/inside/many/no", many],
        [root, "empty/a", "empty/a", folder({})],
        [root, "..", "..", root],
        [root, "few/../few", "few/..", few],
        [root, "./few", ".", root],
        [many, "file", "file", many],
        [many, "file 7\0", "file 7\0", many],
        [many, "日本語", "日本語", many],
        [empty_shard, "a", "a", empty_shard],
        [plain, "a\u0308", "a\u0308", plain],
    ]
    stopped = [
        [root, "link/file 7", "FOLDER_NOT_FOLDER", link],
        [root, "long/a", "FOLDER_NOT_FOLDER", long],
        [root, "few/raw/a", "FOLDER_CODEC", A],
        [A, "a", "FOLDER_CODEC", A],
    ]

    deep = above(7, many)
    for slot in range(8):
        deep = above(slot, deep)
    eighth = deep
    for _ in range(7):
        ((_, eighth),) = eighth.links
    to_plain = above(SLOT, plain)
    later = node(1, data_message(DIRECTORY), [(b"a", A), (b"b/", A)])
    faults = []
    for kind, it in BAD_FOLDERS:
        if kind == "WrongSlot":
            continue  # its bit field is wrong too
        code = SEVERAL[kind].pop(0) if kind in SEVERAL else CODES[kind]
        at = len(it.links) - 1 if code in OF_LINKS else None
        faults.append([it, code, it, at])
    wrong_slot = shard_node([b"%02X" % (SLOT - 1) + NAME], field_of(SLOT - 1))
    faults += [
        [wrong_slot, "FOLDER_WRONG_SLOT", wrong_slot, 0],
        [later, "FOLDER_INVALID_NAME", later, 1],
        [A, "FOLDER_CODEC", A, None],
        [deep, "FOLDER_TOO_DEEP", eighth, None],
        [to_plain, "FOLDER_NOT_SHARD", plain, None],
    ]

    nodes = [
        [A, {"kind": "raw", "size": 2}],
        [leaf(0, b"abc", RAW_DATA), {"kind": "raw", "size": 3}],
        [leaf(0, b"abc"), {"kind": "file", "size": 3}],
        [long, {"kind": "file", "size": 5_000}],
        [node(1, data_message(METADATA)), {"kind": "metadata"}],
        [node(1, data_message(2, None, 2**53 - 1)), {"kind": "file", "size": 2**53 - 1}],
        [
            node(1, data_message(2, None, 2**64 - 1)),
            {"kind": "file", "size": in_json(2**64 - 1)},
        ],
        [root, {"kind": "folder"}],
        [many, {"kind": "shard"}],
        [link, {"kind": "symlink", "target": b"many".hex()}],
        [symlink(b"\xff\0"), {"kind": "symlink", "target": "ff00"}],
        [symlink(b""), {"kind": "symlink", "target": ""}],
    ]
    for seconds, nanoseconds in (0, 0), (-1, 999_999_999), (2**53, 0), (-(2**63), 1):
        time = {"seconds": in_json(seconds), "nanoseconds": nanoseconds}
        for mode in None, 0o755, 2**32 - 1:
            it = folder({}, mode=mode, mtime=(seconds, nanoseconds))
            said = {"kind": "folder", "mtime": time, **({} if mode is None else {"mode": mode})}
            nodes.append([it, said])
    damaged = [[it, DAMAGE[kind].pop(0)] for kind, it in BAD_FILES if kind in DAMAGE]

    every = [it for case in paths + missing + stopped + faults for it in case]
    every += [root, *(it for it, _ in nodes + damaged)]
    blocks = all_nodes(it for it in every if isinstance(it, Node))
    (out / "blocks.car").write_bytes(car([root.cid], blocks.items()))
    cases = {
        "folders": folders,
        "paths": paths,
        "missing": missing,
        "stopped": stopped,
        "faults": faults,
        "nodes": nodes,
        "damaged": damaged,
    }
    with open(out / "cases.json", "w", encoding="utf-8") as file:
        for cases_of_kind in cases.values():
            for case in cases_of_kind:
                case[:] = [str(it.cid) if isinstance(it, Node) else it for it in case]
        json.dump(cases, file)


if __name__ == "__main__":
    main()
