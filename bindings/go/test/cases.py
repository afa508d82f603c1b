#!/usr/bin/env python3
"""Writes random blocks, CIDs, nodes of DAG-PB, CARs, digests and trees of UnixFS for cases_test.go,
with the results of readers and writers that share nothing with the library.

usage: cases.py FILE [COUNT [SEED]]

FILE has one JSON object for each case.
"""

import collections
import hashlib
import json
import pathlib
import sys
import types

TOP = pathlib.Path(__file__).resolve().parent.parent.parent
sys.dont_write_bytecode = True
sys.path[:0] = [str(TOP / "test"), str(TOP.parent)]

# The tests of the Python package make the random input. They are imported without the package.
_package = types.ModuleType("kombilad")
_package.Status = []
sys.modules["kombilad"] = _package
sys.modules["raw"] = types.SimpleNamespace(
    library=collections.defaultdict(types.SimpleNamespace), CidBytes=None
)

import car_cases  # noqa: E402
import random_blocks  # noqa: E402
import random_pb  # noqa: E402
import reader  # noqa: E402
from tests.ipld import formats  # noqa: E402
from tests.ipld.bad_unixfs import BAD_FILES, BAD_FOLDERS, SHORT, A, B, file_node  # noqa: E402
from tests.ipld.random_unixfs import Source as Trees  # noqa: E402
from tests.ipld.unixfs import (  # noqa: E402
    FANOUT,
    FILE,
    METADATA,
    MURMUR3,
    RAW_DATA,
    SHARD,
    Node,
    Profile,
    blocks_of,
    data_message,
    file_of,
    folder,
    leaf,
    node,
    raw_leaf,
    shard,
    symlink,
)
from tests.ipld.unixfs_reader import Fault, Reader  # noqa: E402

# The greatest int of Go.
NO_LIMIT = 2**63 - 1

# The statuses of the faults that the reader of files and folders finds. Some nodes have two faults.
STATUSES = {
    "BitField": ["FOLDER_BIT_FIELD"],
    "End": ["UNIXFS_END"],
    "FieldOrder": ["UNIXFS_FIELD_ORDER", "UNIXFS_NO_TYPE"],
    "Filesize": ["FILE_SIZE"],
    "InvalidName": ["FOLDER_INVALID_NAME"],
    "Mode": ["UNIXFS_MODE_TOO_LARGE"],
    "NameOrder": ["FOLDER_NAME_ORDER"],
    "NoData": ["FILE_NO_DATA"],
    "NotAFile": ["FILE_NOT_FILE"],
    "NotAFolder": ["FOLDER_NOT_FOLDER"],
    "NotAShard": ["FOLDER_NOT_SHARD", "FOLDER_NOT_FOLDER"],
    "ShardKind": ["FOLDER_HASH_FUNCTION", "FOLDER_FANOUT"],
    "Size": ["FILE_TOO_LARGE"],
    "SizeCount": ["FILE_SIZE_COUNT"],
    "Slot": ["FOLDER_INVALID_SLOT", "FOLDER_SLOT_ORDER"],
    "Time": ["UNIXFS_NO_SECONDS", "UNIXFS_NANOSECONDS"],
    "Type": ["UNIXFS_NO_TYPE", "UNIXFS_UNKNOWN_TYPE"],
    "UnknownField": ["UNIXFS_UNKNOWN_FIELD"],
    "Utf8": ["PB_UTF8"],
    "Varint": ["UNIXFS_VARINT_TOO_LARGE"],
    "WrongSize": ["FILE_PART_SIZE"],
    "WrongSlot": ["FOLDER_WRONG_SLOT", "FOLDER_BIT_FIELD"],
}


def value_text(data, tape, at):
    """Returns the text of the value at an entry, and the index after it.

    It has a letter for the kind and the content in hexadecimal digits. Maps are sorted by key.
    """
    kind, length, value = tape[at]
    content = data[value : value + length].hex()
    if kind < 3:
        return "nft"[kind], at + 1
    if kind in (3, 4):
        return f"i{value if kind == 3 else -1 - value}", at + 1
    if kind in (5, 6, 7, 8):
        return "dsbl"[kind - 5] + content, at + 1
    parts, after = [], at + 1
    for _ in range(value):
        key = ""
        if kind == reader.MAP:
            _, size, place = tape[after]
            key, after = data[place : place + size].hex() + ":", after + 1
        text, after = value_text(data, tape, after)
        parts.append(key + text)
    inner = ",".join(sorted(parts) if kind == reader.MAP else parts)
    return (f"{{{inner}}}" if kind == reader.MAP else f"[{inner}]"), after


def failed(name, offset):
    return {"error": name, "offset": -1 if offset is None else offset}


def path_case(source, block, read):
    path = random_blocks.random_path(source, block, read)
    case = {"path": path.decode()}
    try:
        span, rest = reader.at_path(read, path)
    except reader.Rejected as why:
        return {**case, "error": f"PATH_{why.name}"}
    return {**case, "span": span, "rest": path[rest:].decode()}


def block_case(source, block):
    limits = [(64, 10**6), (64, 10**6), (64, 10**6), (2, 10**6), (64, 7), (0, 3), (3, 0)]
    levels, values = source.random.choice(limits)
    case = {"case": "block", "input": block.hex(), "levels": levels, "values": values}
    try:
        read = reader.read(block, levels, values, reader.ReadWithFloats)
    except reader.Rejected as why:
        return {**case, **failed(random_blocks.name_of(why), why.offset)}
    return {
        **case,
        "value": value_text(block, read.tape, 0)[0],
        "links": [it.hex() for it in read.links],
        "positions": read.places,
        "canonical": read.canonical.hex(),
        "paths": [path_case(source, block, read) for _ in range(3)],
    }


def cid_case(source):
    cid = source.cid()
    if source.random.random() < 0.5:
        cid = source.changed(cid)
    case = {"case": "cid", "input": cid.hex()}
    try:
        version, codec, code, digest = reader.cid_parts(cid)
    except reader.Rejected as why:
        return {**case, **failed("CID_" + why.name, None)}
    base = source.random.choice("fbBkzu" if version else "z")
    text = reader.cid_text(cid, base)
    at = source.random.randrange(len(text))
    return {
        **case,
        "parts": [str(version), str(codec), str(code), digest.hex()],
        "base": base,
        "text": text,
        "changed": text[:at] + source.random.choice("abc019zZ-_=ö/") + text[at + 1 :],
    }


def pb_case(block):
    case, read = {"case": "pb", "input": block.hex()}, random_pb.expected(block)
    if isinstance(read, tuple):
        return {**case, **failed(*read)}
    links, data = [], None
    for kind, length, value in read:
        content = block[value : value + length].hex()
        if kind == 8:
            links.append([content, None, None])
        elif kind == 7:
            data = content
        else:
            links[-1][1 if kind == 6 else 2] = content if kind == 6 else str(value)
    return {**case, "node": links, "data": data}


def car_case(data, limit, section_limit):
    """Returns the sections up to the first error."""
    head, sections, error = car_cases.read(data, limit, section_limit)
    case = {"case": "car", "input": data.hex(), "limit": limit, "sectionLimit": section_limit}
    case["sections"] = [section[:2] for section in sections]
    if head is not None:
        case["version"], case["roots"] = head
    return {**case, **failed(*error)} if error else case


def digest_case(source):
    choose = source.random
    block = choose.randbytes(choose.choice([0, 1, 32, 40, 1000]))
    code, digest = choose.choice(
        [
            (0x12, hashlib.sha256(block).digest()),
            (0x13, hashlib.sha512(block).digest()),
            (0x00, block[:64]),
            (0x11, hashlib.sha1(block).digest()),
        ]
    )
    cid = b"\x01\x55" + random_blocks.varint(code) + bytes([len(digest)]) + digest
    case = {"case": "digest", "input": block.hex(), "cid": cid.hex()}
    if code == 0x11:
        return {**case, **failed("UNKNOWN_HASH", None)}
    if choose.random() < 0.3:
        case["input"] += "00"
    elif code != 0 or len(block) <= 64:
        return case
    return {**case, **failed("WRONG_DIGEST", None)}


def tree(blocks, cid, path="."):
    """Yields what the reader finds at a path, and below it."""
    row = {"path": path, "cid": cid.hex(), "kind": "other"}
    try:
        row["kind"], found = blocks.kind(cid)
    except Fault:  # another codec, or metadata
        yield row
        return
    if formats.split_varint(cid[1:])[0] != formats.RAW:
        _, message = blocks.node(cid)
        row["mode"], row["time"] = message.mode, message.mtime
    if row["kind"] == "link":
        row["target"] = found.hex()
    elif row["kind"] == "file":
        row["content"] = blocks.file(cid).hex()
        row["edges"] = sorted({offset for _, offset, _ in blocks.parts(cid)})
    else:
        entries = {name.decode(): it for name, it in blocks.entries(cid)}
        row["names"] = sorted(entries, key=str.encode)
    yield row
    for name, it in blocks.entries(cid) if row["kind"] == "folder" else ():
        below = name.decode() if path == "." else f"{path}/{name.decode()}"
        yield from tree(blocks, it, below)


def tree_case(root, name=None):
    blocks = blocks_of(root)
    return {
        "case": "tree",
        "name": name,
        "input": root.cid.hex(),
        "blocks": [[cid.hex(), data.hex()] for cid, data in blocks],
        "tree": list(tree(Reader(dict(blocks)), root.cid)),
    }


def named_trees(choose):
    """Yields the folders that tests of one kind of thing read, with their names."""
    content = choose.randbytes(3_001)
    small = {b"%d.txt" % at: raw_leaf(b"%d" % at) for at in range(100)}
    entries = {
        b"empty": raw_leaf(b""),
        b"empty folder": folder({}),
        b"hello.txt": file_of(b"hello\n", mode=0o640, mtime=(1_700_000_000, 5)),
        b"leaves": file_of(content, Profile(1, True, 100, 5)),
        b"nodes": file_of(content, Profile(0, False, 200, 3)),
        b"shards": shard({**small, b"below": folder(small, mode=0o700)}, 1),
        "\u00fcber".encode(): folder({b"same": raw_leaf(b"0")}, 1, mtime=(-1, 999_999_999)),
    }
    yield "plain", folder(entries, mode=0o755)
    yield "sharded", shard({**small, **entries}, mode=0o711)
    yield "large", shard({b"%d" % at: raw_leaf(b"%d" % at) for at in range(5_000)})
    inside = formats.block(formats.RAW, b"inside", formats.IDENTITY)
    other = formats.dag_cbor([])
    entries[b"inside"] = Node(inside, 6, 6, ())
    entries[b"link"] = symlink(b"../\xff")
    entries[b"metadata"] = node(0, data_message(METADATA))
    entries[b"other"] = Node(other, None, 1, ())
    # Their nodes have no size.
    entries[b"unsized"] = file_node([A, B, A], [2, 3, 2], b"unsized")
    entries[b"unsized leaf"] = node(0, data_message(RAW_DATA, b"some bytes"))
    entries[b"unsized and empty"] = node(0, data_message(FILE))
    yield "mixed", folder(entries)


def packed(trees, profile, above, depth=0):
    """Returns the node of a random folder, file or symbolic link, and its row."""
    choose, more = trees.random, trees.more()
    kind = choose.choice(["file", "link", "folder"][: 3 if depth < 3 else 2]) if depth else "folder"
    row = {"kind": kind, "mode": more.get("mode"), "time": more.get("mtime")}
    if kind == "file":
        content = trees.bytes(profile.chunk * choose.choice(trees.COUNTS) + choose.randrange(2))
        row["content"] = content.hex()
        # The root has the permissions and the time, so it is not a raw block.
        if more and len(content) <= profile.chunk:
            it = leaf(profile.version, content, **more)
        else:
            it = file_of(content, profile, **more)
    elif kind == "link":
        target = trees.name()
        it, row["target"] = symlink(target, profile.version, **more), target.decode()
    else:
        names = {trees.name() for _ in range(choose.randrange(8))}
        entries = {name: packed(trees, profile, above, depth + 1) for name in sorted(names)}
        is_sharded = sum(len(name) + len(below.cid) for name, (below, _) in entries.items()) > above
        nodes = {name: below for name, (below, _) in entries.items()}
        it = (shard if is_sharded else folder)(nodes, profile.version, **more)
        row["entries"] = {name.decode(): below for name, (_, below) in entries.items()}
    return it, {**row, "cid": it.cid.hex(), "size": it.size or 0, "total": it.total}


def pack_case(trees):
    profile, above = trees.profile(), trees.random.choice([1, 100, 262_144])
    return {
        "case": "pack",
        "version": profile.version,
        "rawLeaves": profile.raw_leaves,
        "chunk": profile.chunk,
        "width": profile.width,
        "above": above,
        "pack": packed(trees, profile, above)[1],
    }


def fault_cases():
    """Yields files and folders that are not valid, with the fault."""
    names = [b"%d" % at for at in range(400)]
    whole = shard({name: A for name in names}, 1)
    label, below = next(link for link in whole.links if len(link[0]) == 2)
    field = (1 << int(label, 16)).to_bytes(int(label, 16) // 8 + 1, "big")
    message = data_message(SHARD, field, hash_type=MURMUR3, fanout=FANOUT)
    others = [folder({b"a": A}), symlink(b"x"), file_of(b""), shard({b"other": A}, 1)]
    bad = [("folder", root) for _, root in BAD_FOLDERS]
    bad += [("folder", node(1, message, [(label, it)])) for it in others if it is not below]
    bad += [("file", root) for root in [*(root for _, root in BAD_FILES), SHORT]]
    for what, root in bad:
        blocks = blocks_of(root)
        read = Reader(dict(blocks))
        try:
            read.entries(root.cid) if what == "folder" else read.file(root.cid)
        except Fault as fault:
            yield {
                "case": "fault",
                "input": root.cid.hex(),
                "blocks": [[cid.hex(), data.hex()] for cid, data in blocks],
                "cid": fault.cid.hex(),
                "kind": what,
                "errors": STATUSES[fault.kind],
            }
        else:
            raise AssertionError(root)


def cases(count, seed):
    """Yields the cases."""
    source, nodes = random_blocks.Source(seed), random_pb.PbSource(seed)
    trees = Trees(seed)
    for name, root in named_trees(source.random):
        yield tree_case(root, name)
    yield from fault_cases()
    for number in range(count):
        if number % 10 == 0:
            yield tree_case(trees.folder().node)
            yield pack_case(trees)
        source.floats = 0.3 if number % 3 == 0 else 0.0
        block, node, car = source.block(number % 4), nodes.node(), car_cases.made(source)
        if number % 5 > 1:
            block, node = source.changed(block), nodes.changed_node(node)
        if number % 2:
            car = source.changed(car)
        yield block_case(source, block)
        yield cid_case(source)
        yield pb_case(node)
        limit = source.random.choice([10**6, 10**6, 10**6, 50, 10, 9])
        yield car_case(car, limit, source.random.choice([NO_LIMIT, NO_LIMIT, 10**6, 30, 5, 4]))
        yield digest_case(source)
        if number % 500 == 0:
            yield from (block_case(source, block[:end]) for end in range(len(block)))
            yield from (pb_case(node[:end]) for end in range(len(node)))
            yield from (car_case(car[:end], 10**6, NO_LIMIT) for end in range(len(car)))


def main():
    if not 2 <= len(sys.argv) <= 4:
        sys.exit(__doc__)
    count = int(sys.argv[2]) if len(sys.argv) > 2 else 2000
    with open(sys.argv[1], "w", encoding="utf-8") as file:
        for case in cases(count, int(sys.argv[3]) if len(sys.argv) > 3 else 1):
            file.write(json.dumps(case) + "\n")


if __name__ == "__main__":
    main()
