"""
Tests the calls that pack files, folders and symbolic links of UnixFS, and that write CARs. The roots
are those of `ipfs add`, and those of an independent writer. The top of the repository is on
PYTHONPATH.
"""

import contextlib
import doctest
import errno
import gc
import io
import itertools
import mmap
import os
import pathlib
import pickle
import random
import socket
import stat
import tempfile
import unittest

import kombilad
from kombilad import CarReader, CarWriter, Cid, Packed, Packer, PackError, Status, _native, _pack
from tests.ipld import unixfs
from tests.ipld.formats import IDENTITY, RAW, car, cid_of
from tests.ipld.random_unixfs import File, Folder, Source
from tests.ipld.test_pack import Packing, write_tree
from tests.ipld.test_unpack import BAD_NAMES, GOOD_NAMES, Target, attributes, tree
from tests.ipld.unixfs import Profile, file_of, folder, raw_leaf, shard, symlink

LOREM = (
    b"Lorem ipsum dolor sit amet, sit enim montes aliquam. Cras non lorem, rhoncus condimentum,"
    b" irure et ante. Pulvinar suscipit odio ante, et tellus a enim, wisi ipsum, vel rhoncus eget"
    b" faucibus varius, luctus turpis nibh vel odio nulla pede."
)
# Roots that `ipfs add` printed: the bytes, the options, and the root.
RECORDED = [
    (b"", {}, "QmbFMke1KXqnYyBBWxB74N4c5SBnJMVAiMNRcGu6x1AwQH"),
    (b"hello world", {}, "Qmf412jQZiuVUtdgnB36FXFX7xg5V6KEbSJ4dpQuhkLyfD"),
    (b"foobar\n", {}, "QmRgutAxd8t7oGkSm4wmeuByG6M51wcTso6cubDdQtuEfL"),
    (b"foobar\n", {"chunk_size": 2}, "QmRJHYTNvC3hmd9gJQARxLR1QMEincccBV53bBw524yyq6"),
    (LOREM, {"chunk_size": 1}, "QmRQ6NZNUs4JrCT2y7tmCC1wUhjqYuTssB8VXbbN3rMffg"),
    (LOREM, {"chunk_size": 32}, "QmYSLcVQqxKygiq7x9w1XGYxU29EShB8ZemiaQ8GAAw17h"),
    (bytes(349), {"chunk_size": 2}, "QmcHNWF1d56uCDSfJPA7t9fadZRV9we5HGSTGSmwuqmMP9"),
    (bytes(174), {"chunk_size": 1}, "QmdgQac8c6Bo3MP5bHAg2yQ25KebFUsmkZFvyByYzf8UCB"),
    (
        b"",
        {"version": 1, "raw_leaves": True},
        "bafkreihdwdcefgh4dqkjv67uzcmw7ojee6xedzdetojuzjevtenxquvyku",
    ),
    (
        b"hello world",
        {"version": 1, "raw_leaves": True},
        "bafkreifzjut3te2nhyekklss27nh3k72ysco7y32koao5eei66wof36n5e",
    ),
]
NUMBERS = "016 037 058 009 038 050 049 004 025 034 041 033 017 040 003 048".split()
PROFILES = [
    Profile(version, raw, chunk, width)
    for version, raw in itertools.product((0, 1), (False, True))
    for chunk, width in ((1, 2), (7, 3), (64, 174))
]
# Modes and times: seconds, and seconds and nanoseconds.
ATTRIBUTES = [
    {},
    {"mode": 0},
    {"mode": 0o7755},
    {"mode": 2**32 - 1},
    {"mtime": (0,)},
    {"mtime": (-1, 999_999_999)},
    {"mode": 0o644, "mtime": (1_700_000_000, 1)},
    {"mtime": (-(2**63),)},
    {"mtime": (2**63 - 1, 999_999_999)},
]


def options_of(profile):
    version, raw_leaves, chunk, width = profile
    return {"version": version, "raw_leaves": raw_leaves, "chunk_size": chunk, "links": width}


def in_ns(more):
    """Returns a mode and a time as the package takes them."""
    more = dict(more)
    if "mtime" in more:
        seconds, nanoseconds = (*more.pop("mtime"), 0)[:2]
        more["mtime_ns"] = seconds * 10**9 + nanoseconds
    return more


def in_order(root, repeats=True):
    """Returns the blocks of a file, a link or a plain folder, each after those to which it links."""
    found = [it for _, below in root.links for it in in_order(below)] + [tuple(root.block)]
    return found if repeats else list(dict(found).items())


def node_of(content, profile, more):
    """Returns the root of a file. With a mode or a time it is a node, also of one raw leaf."""
    if more and len(content) <= profile.chunk:
        return unixfs.leaf(profile.version, content, **more)
    return file_of(content, profile, **more)


def pieces_of(content, choose):
    """Yields bytes in pieces of any lengths, and of several types."""
    at = 0
    while at < len(content) or choose.random() < 0.2:
        end = at + choose.choice((0, 1, 2, 5, 63, 64, 65, 1000))
        yield choose.choice((bytes, bytearray, memoryview))(content[at:end])
        at = end


class Odd(io.RawIOBase):
    """A file that returns fewer bytes than it is asked for."""

    def __init__(self, content):
        self.left, self.asked = content, []

    def read(self, size):
        self.asked.append(size)
        count = min(size, 1 + len(self.asked) % 5)
        found, self.left = self.left[:count], self.left[count:]
        return found


class Broken(Exception):
    pass


class Packs(unittest.TestCase):
    """A test that packs into a list of blocks."""

    def setUp(self):
        self.blocks = []

    def put(self, cid, block):
        self.assertIs(type(cid), Cid)
        self.blocks.append((bytes(cid), block))

    def packer(self, **options):
        self.blocks.clear()
        return Packer(self.put, **options)

    def get(self, cid):
        return dict(self.blocks).get(bytes(cid))

    def check(self, packed, node):
        """Fails unless what is packed is what an independent writer makes."""
        self.assertIsInstance(packed, Packed)
        self.assertEqual(packed, (Cid(node.cid), node.size or 0, node.total))


class Files(Packs):
    def test_recorded_roots(self):
        for content, options, root in RECORDED:
            packed = self.packer(**options).file(content)
            self.assertEqual((str(packed.cid), packed.size), (root, len(content)))
            self.assertEqual(b"".join(kombilad.read_file(self.get, packed.cid)), content)

    def test_each_edge(self):
        choose = random.Random(1)
        for profile, more in itertools.product(PROFILES, ATTRIBUTES[::3]):
            chunk, width = profile.chunk, profile.width
            edges = {0, 1, chunk, chunk * 2, chunk * width, chunk * width**2, chunk * width**3}
            sizes = {edge + by for edge in edges for by in (-1, 0, 1)}
            for size in sorted(it for it in sizes if 0 <= it < 20_000):
                content = choose.randbytes(size)
                node = node_of(content, profile, more)
                packed = self.packer(**options_of(profile)).file(content, **in_ns(more))
                self.check(packed, node)
                self.assertEqual(self.blocks, in_order(node))
                self.assertEqual(b"".join(kombilad.read_file(self.get, packed.cid)), content)

    def test_large_chunks(self):
        for size, profile in itertools.product(
            (0, 262_143, 262_144, 262_145, 1_000_003), (unixfs.DEFAULT, unixfs.RAW_LEAVES)
        ):
            content = random.Random(size).randbytes(size)
            self.check(
                self.packer(version=profile.version, raw_leaves=profile.raw_leaves).file(content),
                file_of(content, profile),
            )
        content = bytes(range(256)) * 9_000
        self.check(
            self.packer(chunk_size=64 << 20).file(content),
            file_of(content, Profile(0, False, 64 << 20, 174)),
        )

    def test_many_chunks(self):
        content = random.Random(2).randbytes(70_000)
        for profile in Profile(0, False, 16, 3), Profile(1, True, 16, 3):
            node = file_of(content, profile)
            self.check(self.packer(**options_of(profile)).file(content), node)
            self.assertEqual(self.blocks, in_order(node))

    def test_sources(self):
        choose = random.Random(3)
        for size in 0, 1, 63, 64, 65, 128, 5_000:
            content = choose.randbytes(size)
            node = file_of(content, Profile(1, True, 64, 3))
            with tempfile.TemporaryFile() as file, tempfile.TemporaryFile(buffering=0) as plain:
                for it in file, plain:
                    it.write(b"before" + content)
                    it.seek(6)
                sources = [
                    content,
                    bytearray(content),
                    memoryview(b"xx" + content)[2:],
                    io.BytesIO(content),
                    Odd(content),
                    [content],
                    [bytes([it]) for it in content],
                    file,
                    plain,
                    *(pieces_of(content, choose) for _ in range(5)),
                ]
                if size % 4 == 0:
                    sources.append(memoryview(content).cast("I"))
                if size:
                    sources.append(mmap.mmap(-1, size))
                    sources[-1][:] = content
                for source in sources:
                    self.check(
                        self.packer(version=1, raw_leaves=True, chunk_size=64, links=3).file(
                            source
                        ),
                        node,
                    )
                    self.assertEqual(self.blocks, in_order(node))

    def test_read_by_the_package(self):
        """A file that is read is packed again."""
        content = random.Random(4).randbytes(3_000)
        packed = self.packer(chunk_size=100).file(content)
        again = []
        pieces = kombilad.read_file(self.get, packed.cid)
        blocks = Packer(lambda *it: again.append(it), chunk_size=77)
        self.check(blocks.file(pieces), file_of(content, Profile(0, False, 77, 174)))

    def test_at_most_one_chunk_is_read_ahead(self):
        source, leaves = Odd(bytes(1_000)), []

        def put(cid, block):
            if cid.codec == RAW:
                leaves.append(block)
                self.assertLessEqual(1_000 - len(source.left), 100 * len(leaves) + 5)

        Packer(put, version=1, raw_leaves=True, chunk_size=100).file(source)
        self.assertEqual((len(leaves), max(source.asked)), (10, 100))

    def test_what_is_no_source(self):
        packer = self.packer()
        for source in "text", 7, None, [1], ["text"], io.StringIO(""), io.StringIO("text"):
            self.assertRaises(TypeError, packer.file, source)
        self.assertEqual(self.blocks, [])


class Folders(Packs):
    def test_recorded_roots(self):
        packer = self.packer()
        empty = packer.file(b"")
        roots = [
            (packer.folder({}), "QmUNLLsPACCz1vLxQVkXqqLX5R1X345qqfHbsf67hvA3Nn"),
            (packer.symlink("b"), "QmfLJN6HLyREnWr7QQNmgmuNziUhcbwUopkHQ8gD3pMfp6"),
            (packer.symlink(b"foobar"), "QmNgQEdXVdLw79nH2bnxLMxnyWMaXrijfqMTiDVat3iyuz"),
        ]
        inside = packer.folder({"car": packer.file(b"car\n")})
        root = packer.folder([("b", inside), ("a", roots[1][0])])
        self.assertEqual((root.size, root.total), (0, 158))
        roots.append((root, "QmZDVQHwjHwA4SyzEDtJLNxmZeJVK1W8BWFAHV61x2Rs19"))
        packer = self.packer(sharded_above=0)
        inside = self.packer().folder({"foobar": packer.file(b"foobar\n")})
        root = packer.folder({"non_sharded_dir": inside})
        roots.append((root, "QmQXUANxYGpkwMTWQUdZBPx9jqfFP7acNgL4FHRWkndKCe"))
        names = [f"long-named-file-{it}" for it in NUMBERS]
        root = packer.folder(dict.fromkeys(names, empty))
        roots.append((root, "QmZbFPTnDBMWbQ6iBxQAhuhLz8Nu9XptYS96e7cuf5wvbk"))
        self.assertEqual(
            kombilad.resolve(self.get, root.cid, "long-named-file-016"), Cid(RECORDED[0][2])
        )
        v1 = "bafybeiczsscdsbs7ffqz55asqdf3smv6klcw3gofszvwlyarci47bgf354"
        roots.append((self.packer(version=1).folder({}), v1))
        for packed, root in roots:
            self.assertEqual(str(packed.cid), root)

    def test_the_limit_of_plain_folders(self):
        names = {f"long-named-file-{it}".encode(): file_of(b"") for it in NUMBERS}
        # The names and the CIDs have 848 bytes.
        for above, write in ((848, folder), (847, shard), (0, shard), (-1, shard), (None, folder)):
            packer = self.packer(sharded_above=above)
            empty = packer.file(b"")
            self.check(packer.folder({it.decode(): empty for it in names}), write(names))

    def test_attributes(self):
        for more, version in itertools.product(ATTRIBUTES, (0, 1)):
            packer = self.packer(version=version, sharded_above=0)
            file = packer.file(b"a", **in_ns(more))
            for packed, node in (
                (file, unixfs.leaf(version, b"a", **more)),
                (packer.folder({}, **in_ns(more)), folder({}, version, **more)),
                (packer.symlink("é", **in_ns(more)), symlink("é".encode(), version, **more)),
                (
                    packer.folder({"a": file}, **in_ns(more)),
                    shard({b"a": unixfs.leaf(version, b"a", **more)}, version, **more),
                ),
            ):
                self.check(packed, node)
                read = kombilad.read_node(packed.cid, self.get(packed.cid))
                expected = {"mode": None, "mtime_ns": None, **in_ns(more)}
                self.assertEqual({it: getattr(read, it) for it in expected}, expected)

    def test_names(self):
        for above in 0, None:
            packer = self.packer(sharded_above=above)
            file = packer.file(b"aa")
            names = [it.decode() for it in GOOD_NAMES]
            root = packer.folder([(it, file) for it in names])
            entries = list(kombilad.list_folder(self.get, root.cid))
            self.assertEqual(sorted(entries), sorted((it, file.cid, file.total) for it in names))
            if above is None:
                self.assertEqual([it.name.encode() for it in entries], sorted(GOOD_NAMES))

    def packed(self, packer, made):
        """Packs a tree of `random_unixfs.py`, and returns it with its independent node."""
        if isinstance(made, File):
            return packer.file(made.content), file_of(made.content, Profile(1, True, 64, 3))
        if not isinstance(made, Folder):
            return packer.symlink(made.target), symlink(made.target, 1)
        parts = {name: self.packed(packer, it) for name, it in made.entries.items()}
        nodes = {name: node for name, (_, node) in parts.items()}
        size = sum(len(name) + len(node.cid) for name, node in nodes.items())
        entries = {name.decode(): packed for name, (packed, _) in parts.items()}
        return packer.folder(entries), (shard if size > 200 else folder)(nodes, 1)

    def test_random_trees(self):
        source = Source(5)
        for _ in range(40):
            made = source.folder()
            packer = self.packer(
                version=1, raw_leaves=True, chunk_size=64, links=3, sharded_above=200
            )
            packed, node = self.packed(packer, made)
            self.check(packed, node)
            self.assertEqual(dict(self.blocks), dict(map(tuple, unixfs.blocks_of(node))))
            for name, it in made.entries.items():
                cid = kombilad.resolve(self.get, packed.cid, name.decode())
                if isinstance(it, File):
                    self.assertEqual(b"".join(kombilad.read_file(self.get, cid)), it.content)

    def test_shards_come_in_order(self):
        entries = {b"%d" % it: raw_leaf(b"%d" % it) for it in range(3_000)}
        packer = self.packer(raw_leaves=True, sharded_above=0)
        packed = {it.decode(): packer.file(it) for it in entries}
        self.blocks.clear()
        node = shard(entries)
        self.check(packer.folder(reversed(packed.items())), node)
        shards = [tuple(it) for it in unixfs.blocks_of(node) if it.cid[0] == 0x12]
        self.assertGreater(len(shards), 256)
        self.assertEqual(self.blocks, shards)

    def test_many_entries(self):
        leaf = raw_leaf(b"x")
        packer = self.packer(version=1, raw_leaves=True)
        file = packer.file(b"x")
        names = [f"{it}" for it in range(66_000)]
        root = packer.folder(dict.fromkeys(names, file))
        self.check(root, shard({it.encode(): leaf for it in names}, 1))
        listed = [it.name for it in kombilad.list_folder(dict(self.blocks_by_cid()).get, root.cid)]
        self.assertEqual(sorted(listed), sorted(names))

    def blocks_by_cid(self):
        return ((Cid(cid), block) for cid, block in self.blocks)


class Errors(Packs):
    def test_options(self):
        for options in (
            {"version": 2},
            {"version": -1},
            {"chunk_size": 0},
            {"chunk_size": -1},
            {"chunk_size": (64 << 20) + 1},
        ):
            self.assertRaises(ValueError, Packer, self.put, **options)
        for links in 1, 0, -1, -(2**70):
            with self.assertRaises(PackError) as raised:
                Packer(self.put, links=links)
            self.assertEqual(raised.exception.status, Status.PACK_WIDTH)
        content = bytes(range(9))
        node = file_of(content, Profile(0, False, 1, 9))
        self.check(Packer(self.put, chunk_size=1, links=2**70).file(content), node)

    def test_modes_and_times(self):
        packer = self.packer()
        calls = (
            lambda **more: packer.file(Broken(), **more),
            lambda **more: packer.folder(Broken(), **more),
            lambda **more: packer.symlink(Broken(), **more),
        )
        for call in calls:
            for mode in -1, 2**32:
                self.assertRaises(ValueError, call, mode=mode)
            for mtime_ns in -(2**63) * 10**9 - 1, 2**63 * 10**9:
                self.assertRaises(ValueError, call, mtime_ns=mtime_ns)
        for more in {"mode": "7"}, {"mtime_ns": 1.5}, {"mtime_ns": "now"}:
            self.assertRaises(TypeError, packer.symlink, "a", **more)
        with self.assertRaises(PackError) as raised:
            _native.pack_symlink(0, None, (0, 10**9), b"a")
        self.assertEqual(raised.exception.name, "PACK_NANOSECONDS")
        self.assertEqual(self.blocks, [])

    def refused(self, packer, entries, status, entry):
        with self.assertRaises(PackError) as raised:
            packer.folder(entries)
        error = raised.exception
        self.assertEqual((error.status, error.entry), (status, entry))
        self.assertEqual(str(error).startswith(_native.status_text(status)), True)
        self.assertIn(repr(entry) if entry is not None else "", str(error))
        copied = pickle.loads(pickle.dumps(error))
        self.assertEqual((copied.entry, str(copied)), (entry, str(error)))

    def test_names(self):
        for above in 0, None:
            packer = self.packer(sharded_above=above)
            file = packer.file(b"")
            for name in [*BAD_NAMES, b""]:
                text = name.decode("utf-8", "surrogateescape")
                utf8 = text.encode("utf-8", "surrogatepass") == name
                invalid = Status.PACK_INVALID_NAME if utf8 else Status.TEXT_UTF8
                invalid = Status.TEXT_UTF8 if "\ud800" in text else invalid
                for others in (), ("!", "a", "zz", "\U0001f600"):
                    entries = {it: file for it in (*others, text)}
                    self.refused(packer, entries, invalid, text)
            self.refused(packer, {"a": file, "\ud800": file}, Status.TEXT_UTF8, "\ud800")
            twice = [("b", file), ("a", packer.symlink("x")), ("c", file), ("a", file)]
            self.refused(packer, twice, Status.PACK_NAME_ORDER, "a")

    def test_sizes(self):
        packer = self.packer()
        file = packer.file(b"")
        large = file._replace(total=2**63)
        self.refused(packer, {"a": large, "b": large}, Status.PACK_TOO_LARGE, None)
        for total in -1, 2**64:
            self.assertRaises(OverflowError, packer.folder, {"a": file._replace(total=total)})

    def test_targets(self):
        packer = self.packer()
        for target in b"\xff", "\udcff", b"\xed\xa0\x80":
            with self.assertRaises(PackError) as raised:
                packer.symlink(target)
            self.assertEqual(raised.exception.status, Status.TEXT_UTF8)

    def test_a_put_that_fails(self):
        content = random.Random(6).randbytes(500)
        profile = Profile(1, True, 10, 3)
        count = len(in_order(file_of(content, profile)))
        for error, fails_at in itertools.product(
            (
                Broken(),
                StopIteration(),
                GeneratorExit(),
                KeyboardInterrupt(),
                PackError(Status(241)),
            ),
            (0, 1, 5, count - 1),
        ):
            left = [fails_at]

            def put(cid, block):
                if left[0] == 0:
                    raise error
                left[0] -= 1
                self.put(cid, block)

            packer = Packer(put, **options_of(profile), sharded_above=0)
            with self.assertRaises(type(error)) as raised:
                packer.file(content)
            self.assertIs(raised.exception, error)
            left[0] = -1
            file = packer.file(content)
            self.check(file, file_of(content, profile))
            left[0] = 0
            for again in (
                lambda: packer.folder({"a": file, "b": file}),
                lambda: packer.symlink("a"),
            ):
                with self.assertRaises(type(error)) as raised:
                    again()
                self.assertIs(raised.exception, error)
            left[0] = -1
            self.check(packer.symlink("a"), symlink(b"a", 1))

    def test_a_source_that_fails(self):
        class Fails(io.RawIOBase):
            def read(self, size):
                if not parts:
                    raise error
                return parts.pop()

        def iterated():
            yield from parts
            raise error

        error, packer = Broken(), self.packer(chunk_size=3)
        for source in Fails(), iterated():
            parts = [b"abcd", b"e", b"fghijkl"]
            with self.assertRaises(Broken) as raised:
                packer.file(source)
            self.assertIs(raised.exception, error)
            content = b"abcdefg"
            self.check(packer.file(content), file_of(content, Profile(0, False, 3, 174)))

    def test_a_put_that_packs(self):
        """Several files are packed at the same time, with one packer."""
        content, found = bytes(range(100)), []

        def put(cid, block):
            if len(found) < 3:
                found.append(None)
                found.append(packer.file(content[50:]))

        profile = Profile(0, False, 7, 3)
        packer = Packer(put, **options_of(profile))
        self.check(packer.file(content), file_of(content, profile))
        for packed in filter(None, found):
            self.check(packed, file_of(content[50:], profile))

    def test_what_is_packed(self):
        """The calls below the package."""
        packing = _native.pack_file(0, False, 174)
        self.assertIsNone(_native.pack_take(packing))
        _native.pack_chunk(packing, b"a")
        for call in _native.pack_chunk, lambda *it: _native.pack_last_chunk(*it, None, None):
            with self.assertRaises(PackError) as raised:
                call(packing, b"b")
            self.assertEqual(raised.exception.status, Status.PACK_WAITING)
        self.assertEqual(_native.pack_take(packing)[1], 1)
        _native.pack_last_chunk(packing, b"b", None, None)
        self.assertEqual([_native.pack_take(packing)[1] for _ in range(2)], [1, 2])
        for _ in range(2):
            with self.assertRaises(kombilad.FileError) as raised:
                _native.pack_chunk(packing, b"c")
            self.assertEqual(raised.exception.status, Status.WALK_CLOSED)
            _native.pack_free(packing)
        self.assertRaises(kombilad.FileError, _native.pack_take, packing)
        for wrong in _native.file_new(bytes(Cid("bafkqaaa")), 0, 1, 1, 1, 1, 1), None, 7:
            self.assertRaises((ValueError, TypeError), _native.pack_take, wrong)
        entry = (1, bytes(88), 0)
        self.assertRaises(ValueError, _native.pack_folder, 0, None, None, 0, b"a", [entry])
        self.assertRaises(ValueError, _native.car_header, [bytes(88)])

    def failing(self):
        """Yields calls that fail after some blocks, and before the last one."""

        def put(cid, block):
            left[0] -= 1
            if left[0] == 0:
                raise Broken

        packer, left = Packer(put, chunk_size=1_000, links=2, sharded_above=0), [0]
        content = random.Random(7).randbytes(100_000)
        entries = {f"{it}": packer.file(b"") for it in range(2_000)}
        for call in (
            lambda: packer.file(content),
            lambda: packer.folder(entries),
            lambda: packer.symlink("a"),
        ):
            for left[0] in 1, 40, 190:
                yield call

    def test_what_fails_is_freed(self):
        """Also if the error is kept, and with it the frames of its traceback."""
        errors = []
        for call in self.failing():
            try:
                call()
            except Broken as error:
                errors.append(error)
        self.assertEqual(len(errors), 7)
        for error in errors:
            found, trace = [], error.__traceback__
            while trace is not None:
                found.append(trace.tb_frame.f_locals.get("packing"))
                trace = trace.tb_next
            found = [it for it in found if it is not None]
            self.assertGreater(len(found), 0)
            for packing in found:
                with self.assertRaises(kombilad.FileError) as raised:
                    _native.pack_take(packing)
                self.assertEqual(raised.exception.status, Status.WALK_CLOSED)

    def test_memory(self):
        packer = Packer(lambda cid, block: None, chunk_size=1_000, links=2, sharded_above=0)
        content = bytes(100_000)
        file = packer.file(b"")
        entries = {f"{it}": file for it in range(2_000)}

        def work():
            packer.file(content)
            packer.folder(entries)
            packer.symlink("a" * 10_000)
            self.assertRaises(PackError, packer.folder, {"": file, **entries})
            for call in self.failing():
                with contextlib.suppress(Broken):
                    call()

        for _ in range(5):
            work()
        gc.collect()
        before = resident()
        # What is packed meanwhile has more than 20 MiB.
        for _ in range(30):
            work()
        gc.collect()
        self.assertLess(resident() - before, 2 << 20)


def resident():
    """Returns how many bytes of memory the process has."""
    return int(pathlib.Path("/proc/self/statm").read_text().split()[1]) * mmap.PAGESIZE


class Partial(io.RawIOBase):
    """A file that takes few bytes at a time."""

    def __init__(self):
        self.taken = bytearray()

    def write(self, data):
        part = bytes(data)[:3]
        self.taken += part
        return len(part)


class Cars(unittest.TestCase):
    BLOCKS = [
        (cid_of(RAW, b""), b""),
        (cid_of(RAW, b"hi", IDENTITY), b"hi"),
        (folder({}).cid, folder({}).block.data),
        (cid_of(RAW, bytes(70_000)), bytes(70_000)),
        (cid_of(0x71, b"\xa0"), b"\xa0"),
        (cid_of(RAW, b""), b""),
    ]

    def test_sections(self):
        cids = [cid for cid, _ in self.BLOCKS]
        for roots in [], cids[:1], cids[::-1], cids * 60:
            expected = car(roots, self.BLOCKS)
            file, partial, parts = io.BytesIO(), Partial(), []

            class Listed:
                write = parts.append

            for out in file, partial, Listed:
                writer = CarWriter(out, iter(map(Cid, roots)))
                for (cid, block), kind in zip(self.BLOCKS, [bytes, bytearray, memoryview] * 2):
                    writer.write(Cid(cid), kind(block))
            for written in file.getvalue(), bytes(partial.taken), b"".join(parts):
                self.assertEqual(written, expected)
            reader = CarReader(expected, verify=True)
            self.assertEqual((reader.version, reader.roots), (1, [Cid(it) for it in roots]))
            self.assertEqual([(bytes(cid), it) for cid, it in reader], self.BLOCKS)

    def test_nothing_is_buffered(self):
        file = io.BytesIO()
        writer = CarWriter(file)
        for count in range(len(self.BLOCKS) + 1):
            self.assertEqual(file.getvalue(), car([], self.BLOCKS[:count]))
            for cid, block in self.BLOCKS[count : count + 1]:
                writer.write(Cid(cid), block)

    def test_errors(self):
        class Full(io.BytesIO):
            def write(self, data):
                raise error

        error = OSError(errno.ENOSPC, "full")
        self.assertRaises(OSError, CarWriter, Full())
        writer = CarWriter(io.BytesIO())
        for cid, block in (("bafkqaaa", b""), (Cid("bafkqaaa"), "text"), (Cid("bafkqaaa"), None)):
            self.assertRaises(TypeError, writer.write, cid, block)

    def test_a_packer_into_a_car(self):
        content = random.Random(8).randbytes(1_000)
        profile = Profile(1, True, 64, 3)
        node, file = file_of(content, profile), io.BytesIO()
        packer = Packer(CarWriter(file, [Cid(node.cid)]).write, **options_of(profile))
        packer.file(content)
        self.assertEqual(file.getvalue(), car([node.cid], in_order(node)))


class Paths(unittest.TestCase):
    """Tests of pack, next to unpack and an independent writer."""

    def setUp(self):
        work = tempfile.TemporaryDirectory(prefix="kombilad-")
        self.addCleanup(work.cleanup)
        self.work = pathlib.Path(work.name).resolve()
        self.dir, self.out = self.work / "dir", self.work / "out.car"

    def pack(self, path, packing=Packing(), **options):
        """Packs a path, and returns the bytes of the CAR. Fails unless the root is as expected."""
        root = kombilad.pack(
            path,
            self.out,
            **options_of(packing.profile),
            preserve=packing.preserve,
            hidden=packing.hidden,
            **options,
        )
        self.assertEqual([it for it in os.listdir(self.work) if it.startswith(".kombi")], [])
        self.assertEqual(root, Cid(packing.node(path).cid))
        data = self.out.read_bytes()
        self.out.unlink()
        return data

    def unpack(self, data, **options):
        """Unpacks a CAR, and returns the path."""
        self.back = pathlib.Path(tempfile.mkdtemp(dir=self.work)) / "back"
        reader = CarReader(data, verify=True)
        (root,) = reader.roots
        blocks = dict(reader)
        self.assertEqual(len(list(CarReader(data))), len(blocks))
        kombilad.unpack(blocks.get, root, self.back, **options)
        return self.back

    def refused(self, expected, path=None, **options):
        """Returns the exception of packing a path, which leaves nothing."""
        before = sorted(os.listdir(self.work))
        with self.assertRaises(expected) as raised:
            kombilad.pack(path or self.dir, self.out, **options)
        self.assertEqual(sorted(os.listdir(self.work)), before)
        return raised.exception

    def random_tree(self, source, choose, depth=0):
        """Returns the tree of a random folder, in which things are often the same."""
        entries = {}
        for _ in range(choose.randrange(7)):
            name, kind = source.name().decode(), choose.random()
            if kind < 0.5:
                content = choose.randbytes(choose.choice((0, 1, 2, 7, 8, 64, 300)))
                entries[name] = choose.choice((content, b"", b"same", bytes(500)))
            elif kind < 0.7:
                entries[name] = choose.choice(("a", "../b", "/c", "é"))
            elif depth < 3:
                entries[name] = self.random_tree(source, choose, depth + 1)
        return entries

    def test_random_trees(self):
        source, choose = Source(9), random.Random(9)
        for number in range(40):
            path = self.work / f"tree{number}"
            write_tree(path, self.random_tree(source, choose))
            for above, folders, files in os.walk(path):
                for name in folders + files:
                    at = os.path.join(above, name)
                    if not os.path.islink(at):
                        os.chmod(at, choose.choice((0o700, 0o755, 0o4711)))
                        os.utime(at, ns=(0, choose.randrange(2**60)))
            packing = Packing(choose.choice(PROFILES), choose.random() < 0.5, choose.random() < 0.7)
            with self.subTest(number=number, packing=packing):
                data = self.pack(path, packing)
                self.assertEqual(data, self.expected(packing.node(path)))
                back = self.unpack(data, symlinks="any", preserve=packing.preserve)
                if packing.hidden:
                    self.assertEqual(tree(back), tree(path))
                if packing.hidden and packing.preserve:
                    found = attributes(path)
                    self.assertEqual(
                        {it: (mode & 0o777, at) for it, (mode, at) in found.items()},
                        attributes(back),
                    )

    def expected(self, node):
        return car([node.cid], in_order(node, repeats=False))

    def test_a_file_and_a_link(self):
        path, link = self.work / "file", self.work / "link"
        link.symlink_to("file")
        for profile, preserve in itertools.product(PROFILES, (False, True)):
            for size in 0, 1, profile.chunk, profile.chunk + 1:
                path.write_bytes(bytes(size))
                packing = Packing(profile, preserve)
                for it in path, link:
                    data = self.pack(it, packing)
                    self.assertEqual(data, self.expected(packing.node(it)))
                self.assertEqual(os.readlink(self.unpack(data, symlinks="any")), "file")

    def test_recorded_roots(self):
        path = self.work / "file"
        for content, options, root in RECORDED:
            path.write_bytes(content)
            self.assertEqual(str(kombilad.pack(path, self.out, **options)), root)
            self.out.unlink()
        write_tree(self.dir, {"a": "b", "b": {"car": b"car\n"}})
        root = "QmZDVQHwjHwA4SyzEDtJLNxmZeJVK1W8BWFAHV61x2Rs19"
        self.assertEqual(str(kombilad.pack(f"{self.dir}/", str(self.out))), root)

    def test_a_sharded_folder(self):
        entries = {f"{it} {'name' * 10}": b"%d" % (it % 100) for it in range(400)}
        write_tree(self.dir, {"many": entries, "few": {"a": b"a"}})
        root = kombilad.pack(self.dir, self.out, sharded_above=1_000)
        few = folder({b"a": file_of(b"a")})
        many = shard({name.encode(): file_of(it) for name, it in entries.items()})
        node = folder({b"many": many, b"few": few})
        self.assertEqual(root, Cid(node.cid))
        blocks = [(bytes(cid), it) for cid, it in CarReader(self.out.read_bytes())]
        self.assertEqual(sorted(blocks), sorted(map(tuple, unixfs.blocks_of(node))))
        self.assertEqual(tree(self.unpack(self.out.read_bytes())), tree(self.dir))

    def test_hidden_entries(self):
        path = self.work / ".dir"
        write_tree(path, {".hidden": b"h", "seen": {".in": {"x": b"x"}, "y": b"y"}, "..a": b"a"})
        self.assertEqual(tree(self.unpack(self.pack(path))), {b"seen": {b"y": b"y"}})
        self.assertEqual(tree(self.unpack(self.pack(path, Packing(hidden=True)))), tree(path))

    def test_links_are_kept(self):
        write_tree(self.dir, {"a": {"b": b"b"}, "to": "a", "nowhere": "no-such", "loop": "."})
        found = tree(self.unpack(self.pack(self.dir)))
        self.assertEqual(found, tree(self.dir))
        self.assertEqual(found[b"loop"], Target(b"."))

    def test_a_car_in_its_folder(self):
        write_tree(self.dir, {"a": b"a", ".b": b"b"})
        root = kombilad.pack(self.dir, self.dir / "out.car", hidden=True)
        self.assertEqual(root, Cid(folder({b"a": file_of(b"a"), b".b": file_of(b"b")}).cid))

    def test_deep_folders(self):
        names = ["d"] * 1_100
        path = self.work
        os.chdir(path)
        self.addCleanup(os.chdir, "/")
        for name in names:
            os.mkdir(name)
            os.chdir(name)
        os.chdir(path)
        self.addCleanup(os.removedirs, path / "/".join(names))
        node = folder({})
        for name in names[1:]:
            node = folder({b"d": node})
        self.assertEqual(kombilad.pack("d", "out.car"), Cid(node.cid))

    def test_special_files(self):
        write_tree(self.dir, {"a": b"a", "in": {}})
        for make in os.mkfifo, lambda path: bound.bind(str(path)):
            special = self.dir / "in" / "special"
            with socket.socket(socket.AF_UNIX) as bound:
                make(special)
                error = self.refused(OSError)
                self.assertEqual(error.filename, str(special))
                self.assertIn("neither a file, a folder nor a symbolic link", str(error))
                self.assertEqual(self.refused(OSError, special).filename, str(special))
            special.unlink()
        self.assertRaises(OSError, kombilad.pack, "/dev/null", self.out)

    def test_what_is_not_utf8(self):
        name = os.fsdecode(b"\xff")
        for entries in {name: b""}, {name: {}}, {name: "a"}, {"link": name}:
            path = self.work / f"dir{len(os.listdir(self.work))}"
            write_tree(path, {"in": entries})
            error = self.refused(OSError, path)
            self.assertEqual(error.filename, str(path / "in" / next(iter(entries))))
            self.assertIn("is not valid UTF-8", str(error))
            self.assertEqual(error.errno, errno.EILSEQ)
        # The name of the root isn't packed.
        path = self.work / os.fsdecode(b"\xfe")
        path.write_bytes(b"a")
        self.assertEqual(kombilad.pack(path, self.work / name), Cid(file_of(b"a").cid))

    def test_errors(self):
        write_tree(self.dir, {"a": b"a"})
        self.assertEqual(self.refused(PackError, links=1).status, Status.PACK_WIDTH)
        for options in {"chunk_size": 0}, {"version": 2}:
            self.refused(ValueError, **options)
        error = self.refused(FileNotFoundError, self.work / "no")
        self.assertEqual(error.filename, str(self.work / "no"))
        for out in self.work / "no" / "out.car", "", self.dir / "a" / "out.car":
            self.assertRaises(OSError, kombilad.pack, self.dir, out)
        self.out.write_bytes(b"stays")
        for out in self.out, self.dir, f"{self.dir}/":
            self.assertRaises(FileExistsError, kombilad.pack, self.dir, out)
        self.assertEqual(self.out.read_bytes(), b"stays")

    def test_the_car_is_a_new_file(self):
        write_tree(self.dir, {"a": b"a"})
        kombilad.pack(self.dir, self.out)
        other = self.work / "other"
        other.write_bytes(b"")
        self.assertEqual(self.out.stat().st_mode, other.stat().st_mode)

    @contextlib.contextmanager
    def at_each_block(self, act):
        """Calls a function before a block is written to a CAR."""
        before = CarWriter.write

        def write(writer, cid, block):
            act()
            before(writer, cid, block)

        CarWriter.write = write
        try:
            yield
        finally:
            CarWriter.write = before

    def test_what_comes_meanwhile(self):
        write_tree(self.dir, {"a": b"a"})

        def come():
            if not os.path.lexists(self.out):
                make()

        for make in self.out.mkdir, lambda: self.out.write_bytes(b"came"):
            with self.at_each_block(come):
                self.assertRaises(FileExistsError, kombilad.pack, self.dir, self.out)
            self.assertEqual(sorted(os.listdir(self.work)), ["dir", "out.car"])
            if self.out.is_dir():
                self.out.rmdir()
            else:
                self.assertEqual(self.out.read_bytes(), b"came")
                self.out.unlink()

    def test_an_error_and_an_interrupt(self):
        write_tree(self.dir, {"a": b"a", "b": {"c": b"c"}})
        for error in KeyboardInterrupt(), OSError(errno.ENOSPC, "full"):
            left = [3]

            def act():
                left[0] -= 1
                if not left[0]:
                    raise error

            with self.at_each_block(act):
                self.assertIs(self.refused(type(error)), error)

    def test_a_file_that_changes(self):
        path = self.work / "file"
        path.write_bytes(b"short")
        read = _pack._Tree.pack_one

        def pack_one(tree, at, info):
            path.write_bytes(b"longer than a chunk")
            return read(tree, at, info)

        _pack._Tree.pack_one = pack_one
        try:
            error = self.refused(OSError, path, raw_leaves=True, chunk_size=10)
            self.assertEqual((error.filename, error.errno), (str(path), errno.EBUSY))
            self.assertIn("it changed while it was packed; try again", str(error))
            # Here the form of the root stays.
            root = kombilad.pack(path, self.out, version=1, raw_leaves=True, chunk_size=10)
        finally:
            _pack._Tree.pack_one = read
        self.assertEqual(root, Cid(file_of(b"longer than a chunk", Profile(1, True, 10, 174)).cid))

    def test_what_replaces_a_file(self):
        """A pipe or a link is there when the file is opened."""
        path = self.work / "file"
        regular = os.stat(__file__)
        tree = _pack._Tree(Packer(lambda *_: None), "", False, False)
        path.symlink_to(__file__)
        self.assertRaises(OSError, tree.pack_one, str(path), regular)
        path.unlink()
        os.mkfifo(path)
        self.assertEqual(stat.S_ISFIFO(path.stat().st_mode), True)
        tree.pack_one(str(path), regular)


class Documented(unittest.TestCase):
    def test_the_examples(self):
        for module, least in ((_pack, 0), (kombilad, 20)):
            found = doctest.testmod(module)
            self.assertEqual(found.failed, 0)
            self.assertGreaterEqual(found.attempted, least)


if __name__ == "__main__":
    unittest.main()
