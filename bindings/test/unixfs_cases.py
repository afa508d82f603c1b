"""Writes files and folders of UnixFS, with what a package has to find in them.

usage: python3 unixfs_cases.py FILE [COUNT [SEED]]     with the top of the repository on PYTHONPATH

An independent writer makes the blocks, and an independent reader finds what is in them. There are
COUNT random trees, and nodes that are not files or folders. Each line of FILE has words between
single spaces. CIDs, blocks, contents, names and paths are in hexadecimal. Instead of a number that
is missing there is a `-`.

    block CID BLOCK
    file CID CONTENT                   the file of a CID
    range CID START BLOCK..            the blocks that lead to the byte START of the file
    folder CID SHARDS [NAME CID TSIZE]..
                                       the entries, after the number of blocks that list them
    path CID PATH TARGET BLOCK..       the target of a path, and the blocks that lead to it
    missing CID PATH FOLDER            the folder in which the last name of the path is missing
    node CID KIND SIZE MODE SECONDS NANOSECONDS TARGET
    bad-file CID FAULT BLOCK           the fault in the first block that is not a part of the file
    bad-folder CID FAULT BLOCK
"""

import pathlib
import sys

from file_cases import CONTENT, PROFILES
from tests.ipld.bad_unixfs import BAD_FILES, BAD_FOLDERS, SHORT
from tests.ipld.formats import RAW
from tests.ipld.random_unixfs import File, Folder, Source, Symlink
from tests.ipld.unixfs import (
    FILE,
    RAW_DATA,
    SHARD,
    SYMLINK,
    blocks_of,
    data_message,
    file_of,
    leaf,
    murmur3,
    node,
    parent,
    raw_leaf,
    shard,
)
from tests.ipld.unixfs_reader import Fault, Reader, cid_parts

# The letters of names whose hashes are searched for ones that begin alike.
NAMES = 200_000


def hexed(*words):
    return [it.hex() if isinstance(it, bytes) else "-" if it is None else str(it) for it in words]


def path_to(reader, cid, start):
    """Yields the CID of each block that leads to a byte of a file."""
    while True:
        yield cid
        part = reader.part(cid)
        start -= len(part.head)
        if start < 0:
            return
        for cid, size in part.children:
            if start < size:
                break
            start -= size


def shards_of(reader, cid):
    """Returns the blocks that list a sharded folder, in their order, or None for a plain one."""
    _, message = reader.node(cid)
    return [it for it, _ in reader.shards(cid)] if message.kind == SHARD else None


def entries_of(reader, cid, shards):
    """
    Yields the entries in the order in which they are listed: first those that a shard itself has,
    and then those of the shards below it.
    """
    for block in shards or [cid]:
        links, _ = reader.node(block)
        for link in links:
            name = link.name[2:] if shards else link.name
            if name:
                yield name, link.cid, link.tsize


class Cases:
    def __init__(self):
        self.blocks, self.lines = {}, []
        self.reader = Reader(self.blocks)

    def add(self, *words):
        self.lines.append(" ".join(hexed(*words)))

    def keep(self, root):
        for cid, block in blocks_of(root):
            self.blocks[cid] = block

    def node(self, cid):
        if cid_parts(cid)[0] == RAW:
            self.add("node", cid, 0, len(self.blocks[cid]), None, None, None, b"")
            return
        _, message = self.reader.node(cid)
        target = (message.content or b"") if message.kind == SYMLINK else b""
        time = message.mtime or (None, None)
        size = message.filesize
        if size is None and message.kind in (FILE, RAW_DATA):
            size = len(message.content or b"") + sum(message.blocksizes)
        self.add("node", cid, message.kind, size, message.mode, *time, target)

    def file(self, root, content):
        self.keep(root)
        self.node(root.cid)
        assert self.reader.file(root.cid) == content
        self.add("file", root.cid, content)
        edges = {at + by for _, at, _ in self.reader.parts(root.cid) for by in (-1, 0, 1)}
        step = len(edges) // 20 + 1
        for start in sorted(it for it in edges if 0 <= it < len(content))[::step]:
            self.add("range", root.cid, start, *path_to(self.reader, root.cid, start))

    def folder(self, root):
        self.keep(root)
        self.node(root.cid)
        shards = shards_of(self.reader, root.cid)
        entries = list(entries_of(self.reader, root.cid, shards))
        assert sorted(it[:2] for it in entries) == sorted(self.reader.entries(root.cid))
        count = len(shards or [root.cid])
        self.add("folder", root.cid, count, *(word for entry in entries for word in entry))

    def paths(self, root, tree, steps=(), cid=None, blocks=()):
        """Adds the paths to all entries of a folder, and one to an entry that is missing."""
        cid = cid or root.cid
        self.add("missing", root.cid, b"/".join([*steps, b"not there"]), cid)
        for name, it in tree.entries.items():
            *found, target = self.reader.steps(cid, name)
            assert target == it.node.cid
            self.add("path", root.cid, b"/".join([*steps, name]), target, *blocks, *found)
            if isinstance(it, Folder):
                self.paths(root, it, [*steps, name], target, [*blocks, *found])

    def tree(self, tree):
        if isinstance(tree, File):
            self.file(tree.node, tree.content)
        elif isinstance(tree, Symlink):
            self.keep(tree.node)
            self.node(tree.node.cid)
        else:
            self.folder(tree.node)
            for it in tree.entries.values():
                self.tree(it)

    def bad(self, kind, root, read):
        self.keep(root)
        try:
            read(root.cid)
        except Fault as fault:
            self.add(kind, root.cid, fault.kind, fault.cid)
        else:
            raise AssertionError(f"nothing is wrong with {root.cid}")


def alike(depth):
    """Returns names whose hashes begin with the same bytes, `depth` of them."""
    found = {}
    for number in range(NAMES):
        name = b"%d" % number
        names = found.setdefault(murmur3(name)[:depth], [])
        names.append(name)
        if len(names) == 3:
            return names
    raise AssertionError("there are too few names")


def main():
    out, count, seed = sys.argv[1], *(int(it) for it in [*sys.argv[2:], 100, 1][:2])
    cases, source = Cases(), Source(seed)
    for profile in PROFILES.values():
        for content in b"", CONTENT[: profile.chunk * 20 + 1]:
            cases.file(file_of(content, profile), content)
    # Files of which a block above others has bytes too, or whose root states no size.
    parts = [leaf(1, b"cd"), raw_leaf(b"efg"), leaf(0, b"h", RAW_DATA)]
    above = data_message(FILE, b"ab", 8, [it.size for it in parts])
    cases.file(node(1, above, [(b"", it) for it in parts], 8), b"abcdefgh")
    cases.file(node(1, data_message(FILE, b"abc")), b"abc")
    cases.file(parent(1, parts * 3, mode=0o644, mtime=(-5, 999_999_999)), b"cdefgh" * 3)
    for _ in range(count):
        tree = source.folder()
        cases.tree(tree)
        cases.paths(tree.node, tree)
    # Folders with many entries, and shards below shards.
    for depth in 0, 2:
        nodes = {it: raw_leaf(it) for it in alike(depth)} if depth else {}
        nodes.update((b"%d" % it, raw_leaf(b"%d" % it)) for it in range(0 if depth else 2000))
        root = shard(nodes, 1)
        tree = Folder(root, {it: File(nodes[it], it) for it in list(nodes)[::97]})
        cases.folder(root)
        cases.paths(root, tree)
    for _, root in BAD_FILES:
        cases.bad("bad-file", root, cases.reader.file)
    cases.bad("bad-file", SHORT, cases.reader.file)
    for _, root in BAD_FOLDERS:
        cases.bad("bad-folder", root, cases.reader.entries)
    blocks = [" ".join(hexed("block", *it)) for it in cases.blocks.items()]
    pathlib.Path(out).write_text("\n".join(blocks + cases.lines) + "\n", encoding="utf-8")


if __name__ == "__main__":
    main()
