"""
Tests the calls on files and folders of UnixFS, and the client examples/fetch_file.py against honest
and dishonest gateways. An independent writer packs the files and folders, and an independent reader
reads them. The top of the repository is on PYTHONPATH.
"""

import io
import itertools
import os
import pathlib
import pickle
import random
import stat
import subprocess
import sys
import tempfile
import threading
import unittest
import zipfile

import kombilad
from file_cases import CONTENT, PROFILES as NAMED_PROFILES
from kombilad import Cid, FolderEntry, Node, NodeKind, _native
from tests.gateway import Gateway, Lie
from tests.ipld import unixfs
from tests.ipld.bad_unixfs import BAD_FILES, BAD_FOLDERS, A, B, file_node
from tests.ipld.formats import IDENTITY, RAW, Block, cid_of
from tests.ipld.random_unixfs import File, Folder, Source
from tests.ipld.test_unpack import (
    BAD_NAMES,
    GOOD_NAMES,
    INSIDE,
    NO_TARGETS,
    OUTSIDE,
    ROOT,
    TARGETS,
    Expected,
    LeadsOut,
    Target,
    attributes,
    count_of,
    hostile,
    leads_out,
    nested,
    plain,
    tree,
    tree_of,
)
from tests.ipld.unixfs import (
    DEFAULT,
    METADATA,
    Profile,
    data_message,
    file_of,
    folder,
    number_field,
    parent,
    raw_leaf,
    shard,
    symlink,
)
from tests.ipld.unixfs_reader import Fault, Reader

FETCH = pathlib.Path(__file__).resolve().parent.parent / "python/examples/fetch_file.py"
PROFILES = list(NAMED_PROFILES.values())


# The error for each kind of fault in a folder.
FAULTS = {
    "NotAFolder": {"FOLDER_NOT_FOLDER"},
    "InvalidName": {"FOLDER_INVALID_NAME"},
    "NameOrder": {"FOLDER_NAME_ORDER"},
    "Utf8": {"PB_UTF8"},
    "FieldOrder": {"UNIXFS_FIELD_ORDER", "UNIXFS_NO_TYPE"},
    "UnknownField": {"UNIXFS_UNKNOWN_FIELD"},
    "NoData": {"FILE_NO_DATA"},
    "ShardKind": {"FOLDER_HASH_FUNCTION", "FOLDER_FANOUT"},
    "BitField": {"FOLDER_BIT_FIELD"},
    "Slot": {"FOLDER_INVALID_SLOT", "FOLDER_SLOT_ORDER"},
    # The bit field is that of the right slot, and is compared first.
    "WrongSlot": {"FOLDER_BIT_FIELD"},
}
# Those with the number of a link.
OF_LINKS = (
    "FOLDER_INVALID_NAME",
    "FOLDER_NAME_ORDER",
    "FOLDER_INVALID_SLOT",
    "FOLDER_SLOT_ORDER",
    "FOLDER_WRONG_SLOT",
)


def blocks_of(node):
    """Returns the blocks of a node and below it by CID, in the order of the bytes."""
    return {Cid(it.cid): it.data for it in unixfs.blocks_of(node)}


class Asked(dict):
    """Blocks by CID, which remember those that were asked for."""

    def __init__(self, node):
        super().__init__(blocks_of(node))
        self.cids = []

    def get(self, cid):
        self.cids.append(cid)
        return super().get(cid)


class Broken(Exception):
    pass


def hostile_sources(blocks, cid):
    """
    Yields functions that return the blocks, except a wrong one for the CID, with the exceptions to
    expect.
    """
    block = blocks[cid]

    def source(wrong):
        return lambda it: wrong() if it == cid else blocks[it]

    def broken():
        raise Broken

    for wrong in (
        block + b"\0",
        block[:-1],
        b"",
        bytearray(block[::-1] + b"x"),
        memoryview(b"other"),
        bytes(3 << 20),
    ):
        yield source(lambda wrong=wrong: wrong), kombilad.VerifyError
    yield source(lambda: None), kombilad.MissingBlockError
    for wrong in "text", 5, 1 << 62, [block], object():
        yield source(lambda wrong=wrong: wrong), TypeError
    yield source(broken), Broken


def pieces(blocks, node, **limits):
    """Returns the bytes that are read before an error, and the error or None."""
    read = bytearray()
    try:
        for piece in kombilad.read_file(blocks.get, Cid(node.cid), **limits):
            read += piece
    except (kombilad.KombiladError, kombilad.MissingBlockError) as error:
        return bytes(read), error
    return bytes(read), None


class Files(unittest.TestCase):
    def test_a_file_is_read(self):
        for profile in PROFILES:
            for content in (b"", b"a", CONTENT):
                node = file_of(content, profile)
                self.assertEqual(pieces(blocks_of(node), node), (content, None))

    def test_blocks_are_asked_for_in_order(self):
        node = file_of(CONTENT, PROFILES[1])
        asked, blocks = [], blocks_of(node)

        def get(cid):
            asked.append(cid)
            return memoryview(blocks[cid])

        self.assertEqual(b"".join(kombilad.read_file(get, Cid(node.cid))), CONTENT)
        self.assertEqual(asked, list(blocks))

    def test_a_block_in_its_cid_is_not_asked_for(self):
        inside = Cid(cid_of(RAW, b"inside", IDENTITY))
        self.assertEqual(b"".join(kombilad.read_file({}.get, inside)), b"inside")
        self.assertEqual(kombilad.open_file({}.get, inside).read(), b"inside")

    def test_any_wrong_block_is_refused(self):
        for profile in PROFILES:
            node = file_of(CONTENT, profile)
            blocks = blocks_of(node)
            for cid in random.Random(1).sample(list(blocks), 3):
                changed = bytearray(blocks[cid])
                changed[len(changed) // 2] ^= 1
                read, error = pieces({**blocks, cid: changed}, node)
                self.assertIsInstance(error, kombilad.VerifyError)
                self.assertEqual((error.name, error.cid), ("WRONG_DIGEST", cid))
                self.assertTrue(CONTENT.startswith(read))
                self.assertIn(str(cid), str(error))

    def test_a_missing_block_is_named(self):
        node = file_of(CONTENT, PROFILES[0])
        blocks = blocks_of(node)
        *_, last = blocks
        del blocks[last]
        read, error = pieces(blocks, node)
        self.assertIsInstance(error, kombilad.MissingBlockError)
        self.assertEqual((error.cid, str(error)), (last, f"the block {last} is missing"))
        self.assertEqual(read, CONTENT[: 3 * 262_144])

    def test_limits(self):
        node = file_of(CONTENT, PROFILES[1])
        blocks = blocks_of(node)
        exact = {"max_bytes": len(CONTENT), "max_blocks": len(blocks), "max_levels": 3}
        self.assertEqual(pieces(blocks, node, **exact), (CONTENT, None))
        free = dict.fromkeys(["max_bytes", "max_blocks", "max_waiting", "max_levels"])
        self.assertEqual(pieces(blocks, node, **free), (CONTENT, None))
        for name, value, expected in (
            ("max_bytes", len(CONTENT) - 1, "FILE_TOO_LARGE"),
            ("max_blocks", len(blocks) - 1, "FILE_TOO_MANY_BLOCKS"),
            ("max_waiting", 1, "FILE_TOO_MANY_PARTS"),
            ("max_levels", 2, "FILE_TOO_DEEP"),
            ("max_levels", -1, "FILE_TOO_DEEP"),
        ):
            read, error = pieces(blocks, node, **{**exact, name: value})
            self.assertIsInstance(error, kombilad.FileError)
            self.assertEqual((error.name, error.offset), (expected, None))
            self.assertTrue(CONTENT.startswith(read) and error.cid in blocks)

    def test_ranges(self):
        choose, size = random.Random(2), len(CONTENT)
        edges = [0, 1, 8_999, 9_000, 9_001, 262_144, size - 1, size, size + 1, 2**64, 2**70]
        for profile in PROFILES:
            node = file_of(CONTENT, profile)
            blocks = blocks_of(node)
            whole = itertools.product(edges, [0, 1, 9_000, None])
            some = ((choose.randrange(size), choose.randrange(20_000)) for _ in range(30))
            for start, length in [*whole, *some]:
                expected = CONTENT[start:] if length is None else CONTENT[start : start + length]
                found = pieces(blocks, node, start=start, length=length)
                self.assertEqual(found, (expected, None), (start, length))

    def test_only_blocks_of_the_range_are_asked_for(self):
        asked = Asked(file_of(CONTENT, Profile(1, True, 9_000, 5)))
        root, order = next(iter(asked)), list(asked)
        found = b"".join(kombilad.read_file(asked.get, root, start=500_000, length=100))
        self.assertEqual(found, CONTENT[500_000:500_100])
        leaf = Cid(raw_leaf(CONTENT[495_000:504_000]).cid)
        self.assertEqual((asked.cids[0], asked.cids[-1], len(asked.cids)), (root, leaf, 4))
        self.assertEqual(asked.cids, [it for it in order if it in asked.cids])
        asked.cids.clear()
        for start, length in (len(CONTENT), None), (0, 0):
            self.assertEqual(
                list(kombilad.read_file(asked.get, root, start=start, length=length)), []
            )
        self.assertEqual(set(asked.cids) - {root}, set())
        for wrong in {"start": -1}, {"length": -1}:
            with self.assertRaises(ValueError):
                kombilad.read_file(asked.get, root, **wrong)

    def test_a_range_within_a_limit(self):
        node = file_of(CONTENT, PROFILES[1])
        read, error = pieces(blocks_of(node), node, start=9, length=100, max_bytes=100)
        self.assertEqual((read, error), (CONTENT[9:109], None))
        _, error = pieces(blocks_of(node), node, start=9, length=101, max_bytes=100)
        self.assertEqual(error.name, "FILE_TOO_LARGE")

    def test_hostile_sources(self):
        node = file_of(CONTENT, PROFILES[1])
        blocks = blocks_of(node)
        for cid in random.Random(3).sample(list(blocks), 3):
            for get, expected in hostile_sources(blocks, cid):
                read = bytearray()
                with self.assertRaises(expected) as raised:
                    for piece in kombilad.read_file(get, Cid(node.cid)):
                        read += piece
                self.assertTrue(CONTENT.startswith(read))
                self.assertEqual(getattr(raised.exception, "cid", cid), cid)

    def test_a_source_that_reads_on(self):
        def get(cid):
            return next(iterator)

        node = file_of(b"a")
        iterator = kombilad.read_file(get, Cid(node.cid))
        with self.assertRaises(ValueError):
            list(iterator)
        self.assertEqual(list(iterator), [])

    def test_walks(self):
        """A walk of one kind is none of the other, and each call checks what it gets."""
        file, listing = _native.file_new(bytes(Cid(A.cid)), 0, 9, 9, 9, 9, 9), _native.folder_new(
            bytes(Cid(A.cid))
        )
        for take, walk in (_native.file_take, listing), (_native.folder_take, file):
            with self.assertRaises(kombilad.FileError) as raised:
                take(walk, b"")
            self.assertEqual(raised.exception.name, "WALK_CLOSED")
        self.assertEqual(_native.walk_wanted(file), bytes(Cid(A.cid)))
        self.assertEqual(_native.file_take(file, b"aa"), b"aa")
        self.assertIsNone(_native.walk_wanted(file))
        with self.assertRaises(kombilad.FileError) as raised:
            _native.file_take(file, b"aa")
        self.assertEqual(raised.exception.name, "WALK_DONE")
        for wrong in object(), None, 5:
            for call in (
                lambda wrong=wrong: _native.walk_wanted(wrong),
                lambda wrong=wrong: _native.file_take(wrong, b""),
                lambda wrong=wrong: _native.folder_take(wrong, b""),
            ):
                self.assertRaises(ValueError, call)
        for call in (_native.folder_new, lambda it: _native.file_new(it, 0, 0, 0, 0, 0, 0)):
            self.assertRaises(kombilad.CidError, call, b"\1")
        self.assertRaises(kombilad.CidError, _native.unixfs_node, b"", b"")
        for ends in (1,), (0, -1), (2**70,), ("a",), (0,) * 9:
            with self.assertRaises((ValueError, OverflowError, TypeError)):
                _native.folder_lookup(bytes(Cid(A.cid)), b"a", b"", ends)

    def test_other_nodes_are_not_files(self):
        for node in folder({}), symlink(b"a"):
            _, error = pieces(blocks_of(node), node)
            self.assertEqual((error.name, error.cid), ("FILE_NOT_FILE", Cid(node.cid)))
        block = b"\xa0"
        for cid in Cid.of_block(block), Cid.of_block(block, 0x70):
            with self.assertRaises(kombilad.KombiladError) as raised:
                list(kombilad.read_file({cid: block}.get, cid))
            self.assertEqual(raised.exception.cid, cid)
        self.assertIsInstance(raised.exception, kombilad.BlockError)
        copied = pickle.loads(pickle.dumps(raised.exception))
        self.assertEqual((copied.cid, str(copied)), (cid, str(raised.exception)))

    def test_an_error_of_the_source_is_passed_on(self):
        def get(cid):
            raise OSError("no network")

        with self.assertRaisesRegex(OSError, "no network"):
            list(kombilad.read_file(get, Cid(file_of(b"a").cid)))
        with self.assertRaises(TypeError):
            list(kombilad.read_file(lambda _: "text", Cid(file_of(b"a").cid)))

    def test_threads_read_at_once(self):
        node = file_of(CONTENT, PROFILES[0])
        blocks, wrong = blocks_of(node), []

        def read():
            for _ in range(20):
                if pieces(blocks, node) != (CONTENT, None):
                    wrong.append(1)

        threads = [threading.Thread(target=read) for _ in range(4)]
        for it in threads:
            it.start()
        for it in threads:
            it.join()
        self.assertEqual(wrong, [])


class Readers(unittest.TestCase):
    """Tests of open_file."""

    def test_a_reader_is_a_file(self):
        choose = random.Random(4)
        for profile in PROFILES:
            node = file_of(CONTENT, profile)
            with kombilad.open_file(blocks_of(node).get, Cid(node.cid)) as file:
                self.assertEqual((file.size, file.tell()), (len(CONTENT), 0))
                self.assertTrue(file.readable() and file.seekable() and not file.writable())
                self.check_same(choose, file, io.BytesIO(CONTENT), 60)
            with io.BufferedReader(kombilad.open_file(blocks_of(node).get, Cid(node.cid))) as file:
                self.check_same(choose, file, io.BytesIO(CONTENT), 200)

    def check_same(self, choose, file, expected, count):
        for _ in range(count):
            size = choose.choice([0, 1, 10, 5_000, 300_000])
            step = choose.randrange(6)
            if step == 0:
                at = choose.randrange(len(CONTENT) + 10_000)
                self.assertEqual(file.seek(at), expected.seek(at))
            elif step == 1:
                at = choose.randrange(-min(expected.tell(), 20_000), 20_000)
                self.assertEqual(file.seek(at, 1), expected.seek(at, 1))
            elif step == 2:
                at = choose.randrange(-100_000, 100)
                self.assertEqual(file.seek(at, 2), expected.seek(at, 2))
            elif step == 3:
                found, room = bytearray(size), bytearray(size)
                self.assertEqual(file.readinto(found), expected.readinto(room))
                self.assertEqual(found, room)
            elif step == 4 and choose.random() < 0.2:
                self.assertEqual(file.read(), expected.read())
            else:
                self.assertEqual(file.read(size), expected.read(size))
            self.assertEqual(file.tell(), expected.tell())

    def test_all_of_it(self):
        for content in b"", b"a", CONTENT:
            for profile in PROFILES:
                node = file_of(content, profile)
                file = kombilad.open_file(blocks_of(node).get, Cid(node.cid))
                for read in file.read, lambda: file.read(None), file.readall, lambda: file.read(-5):
                    file.seek(0)
                    self.assertEqual((read(), file.read(), file.read(5)), (content, b"", b""))
                    self.assertEqual(file.tell(), len(content))
                self.assertEqual(file.seek(2**70), 2**70)
                self.assertEqual((file.read(), file.readinto(bytearray(5))), (b"", 0))

    def test_zip(self):
        packed = io.BytesIO()
        names = [f"{number}.txt" for number in range(300)]
        with zipfile.ZipFile(packed, "w", zipfile.ZIP_DEFLATED) as archive:
            for name in names:
                archive.writestr(name, name * 100)
            archive.writestr("content", CONTENT)
        node = file_of(packed.getvalue(), Profile(1, True, 9_000, 5))
        asked = Asked(node)
        with zipfile.ZipFile(kombilad.open_file(asked.get, Cid(node.cid))) as archive:
            self.assertEqual(archive.namelist(), [*names, "content"])
            self.assertLess(len(set(asked.cids)), len(asked) // 2)
            self.assertEqual(archive.read("7.txt"), b"7.txt" * 100)
            self.assertEqual(archive.read("content"), CONTENT)
            self.assertIsNone(archive.testzip())

    def test_lines(self):
        text = "".join(f"{number} é\n" for number in range(5_000))
        node = file_of(text.encode(), PROFILES[2])
        file = io.BufferedReader(kombilad.open_file(blocks_of(node).get, Cid(node.cid)))
        self.assertEqual("".join(io.TextIOWrapper(file, "utf-8")), text)

    def test_the_blocks_that_are_asked_for(self):
        asked = Asked(file_of(CONTENT, Profile(1, True, 9_000, 5)))
        order = list(asked)
        file = kombilad.open_file(asked.get, order[0])
        self.assertEqual(asked.cids, order[:1])
        # One walk, however small the parts are, and however often the position moves in a block.
        for at in range(0, 30_000, 1000):
            self.assertEqual(file.seek(at), at)
            self.assertEqual(file.read(1000), CONTENT[at : at + 1000])
            begin = file.seek(at - at % 9_000 + 10)
            self.assertEqual(file.read(20), CONTENT[begin : begin + 20])
        self.assertEqual(asked.cids, order[: len(asked.cids)])
        asked.cids.clear()
        file.seek(-10, 2)
        self.assertEqual(asked.cids, [])
        self.assertEqual(file.read(10), CONTENT[-10:])
        self.assertEqual((asked.cids[0], len(asked.cids)), (order[0], 4))

    def test_sizes_that_writers_leave_out(self):
        parts = [A, B, A]
        inner = file_node(parts, [2, 3, 2])
        tall = file_node([inner, A], [7, 2], b"head")
        for node, content in (
            (inner, b"aabbbaa"),
            (tall, b"headaabbbaaaa"),
            (file_node([], [], b"text"), b"text"),
            (file_node([], []), b""),
            (unixfs.node(1, data_message(unixfs.RAW_DATA, b"old")), b"old"),
        ):
            found = kombilad.read_node(Cid(node.cid), node.block.data)
            self.assertEqual(found.size, len(content))
            asked = Asked(node)
            file = kombilad.open_file(asked.get, Cid(node.cid))
            self.assertEqual((file.size, len(asked.cids)), (len(content), 1))
            self.assertEqual((file.read(), file.seek(0, 2)), (content, len(content)))
            for most in len(content), len(content) + 1:
                limited = kombilad.open_file(asked.get, Cid(node.cid), max_bytes=most)
                self.assertEqual(limited.size, len(content))
            if content:
                with self.assertRaises(kombilad.FileError) as raised:
                    kombilad.open_file(asked.get, Cid(node.cid), max_bytes=len(content) - 1)
                self.assertEqual(raised.exception.name, "FILE_TOO_LARGE")

    def test_what_is_not_opened(self):
        for kind, node in BAD_FILES:
            with self.assertRaises(kombilad.KombiladError) as raised:
                kombilad.open_file(blocks_of(node).get, Cid(node.cid)).read()
            self.assertEqual(raised.exception.cid, Cid(node.cid), kind)
        for node in folder({}), symlink(b"a"), shard({}):
            with self.assertRaises(kombilad.FileError) as raised:
                kombilad.open_file(blocks_of(node).get, Cid(node.cid))
            self.assertEqual(raised.exception.name, "FILE_NOT_FILE")
        with self.assertRaises(kombilad.MissingBlockError):
            kombilad.open_file({}.get, Cid(A.cid))
        node = file_of(CONTENT, PROFILES[1])
        for name, value in ("max_waiting", 1), ("max_levels", 0), ("max_blocks", 1):
            with self.assertRaises(kombilad.FileError):
                kombilad.open_file(blocks_of(node).get, Cid(node.cid), **{name: value}).read()

    def test_after_an_error(self):
        node = file_of(CONTENT, Profile(1, True, 9_000, 5))
        blocks = blocks_of(node)
        cid = Cid(raw_leaf(CONTENT[495_000:504_000]).cid)
        for get, expected in hostile_sources(blocks, cid):
            lies = True
            file = kombilad.open_file(lambda it: get(it) if lies else blocks[it], Cid(node.cid))
            self.assertEqual(file.read(490_000), CONTENT[:490_000])
            for call in (
                lambda: file.read(10_000),
                file.read,
                file.readall,
                lambda: file.readinto(bytearray(10_000)),
            ):
                with self.assertRaises(expected) as raised:
                    call()
                self.assertEqual(getattr(raised.exception, "cid", cid), cid)
                self.assertEqual(file.tell(), 490_000)
            self.assertEqual(file.read(5_000), CONTENT[490_000:495_000])
            self.assertRaises(expected, file.read, 1)
            # The other blocks can be read, and this one if the source has it.
            self.assertEqual(file.seek(9_000, 1), 504_000)
            self.assertEqual(file.read(10), CONTENT[504_000:504_010])
            lies = False
            file.seek(495_000)
            self.assertEqual(file.read(), CONTENT[495_000:])

    def test_positions(self):
        file = kombilad.open_file({Cid(A.cid): b"aa"}.get, Cid(A.cid))
        for wrong in (-1,), (-1, 1), (-3, 2), (0, 3), (0, -1):
            self.assertRaises(ValueError, file.seek, *wrong)
        self.assertRaises(TypeError, file.seek, "a")
        self.assertRaises(TypeError, file.seek, 1.5)
        self.assertRaises(TypeError, file.read, "a")
        self.assertRaises(TypeError, file.readinto, b"ab")
        self.assertRaises(TypeError, file.readinto, "ab")
        self.assertEqual((file.tell(), file.read()), (0, b"aa"))
        self.assertRaises(io.UnsupportedOperation, file.fileno)
        file.close()
        file.close()
        for call in file.read, file.readall, file.tell, lambda: file.seek(0):
            self.assertRaises(ValueError, call)
        self.assertRaises(ValueError, file.readinto, bytearray(1))

    def test_a_source_that_uses_the_reader(self):
        node = file_of(CONTENT, PROFILES[1])
        blocks, calls, file = blocks_of(node), [], None

        def get(cid):
            if calls:
                calls.pop()()
            return blocks[cid]

        file = kombilad.open_file(get, Cid(node.cid))
        for call in (
            lambda: file.read(1),
            lambda: file.read(),
            lambda: file.readinto(bytearray(1)),
            lambda: file.seek(0),
        ):
            calls.append(call)
            self.assertRaises(RuntimeError, file.read)
            self.assertEqual(file.tell(), 0)
        calls.append(file.close)
        file.read()
        self.assertTrue(file.closed)

    def test_threads(self):
        """One call reads at a time, and each gets the bytes at its position."""
        node = file_of(CONTENT, PROFILES[0])
        blocks, wrong = blocks_of(node), []

        def read(file):
            for _ in range(200):
                try:
                    begin = file.seek(random.randrange(len(CONTENT)))
                    found = file.read(10)
                    if not found and begin < len(CONTENT) and file.tell() < len(CONTENT):
                        wrong.append(begin)
                except RuntimeError:
                    pass

        file = kombilad.open_file(blocks.get, Cid(node.cid))
        threads = [threading.Thread(target=read, args=(file,)) for _ in range(4)]
        for it in threads:
            it.start()
        for it in threads:
            it.join()
        file.seek(0)
        self.assertEqual((wrong, file.read()), ([], CONTENT))


def listed(node):
    """Returns the names and the CIDs of the entries that are listed, and the error or None."""
    found = []
    try:
        for it in kombilad.list_folder(blocks_of(node).get, Cid(node.cid)):
            found.append((it.name.encode(), bytes(it.cid)))
    except (kombilad.KombiladError, kombilad.MissingBlockError) as error:
        return found, error
    return found, None


def expected_entries(node):
    return [
        (name, bytes(cid)) for name, cid in Expected(dict(unixfs.blocks_of(node))).entries(node.cid)
    ]


class Folders(unittest.TestCase):
    MANY = {b"%d" % number: raw_leaf(b"%d" % number) for number in range(3000)}

    def test_entries(self):
        source = Source(5)
        made = [source.folder().node for _ in range(40)]
        made += [folder({}), folder({}, 1), shard({}), ROOT, folder(INSIDE), shard(INSIDE, 1)]
        made += [folder(self.MANY), shard(self.MANY, 1)]
        made += [write({it: A for it in GOOD_NAMES}) for write in (folder, shard)]
        for node in made:
            self.assertEqual(listed(node), (expected_entries(node), None))

    def test_sizes_of_links(self):
        node = folder({b"a": file_of(CONTENT), "é".encode(): A})
        (_, big), _ = node.links
        self.assertEqual(
            list(kombilad.list_folder(blocks_of(node).get, Cid(node.cid))),
            [
                FolderEntry("a", Cid(big.cid), big.total),
                FolderEntry("é", Cid(A.cid), 2),
            ],
        )
        link = unixfs.pb([b"\x0a" + bytes([len(A.cid)]) + A.cid + b"\x12\x01a"], b"\x08\x01")
        cid = Cid.of_block(link, kombilad.DAG_PB)
        self.assertEqual(
            list(kombilad.list_folder({cid: link}.get, cid)), [FolderEntry("a", Cid(A.cid), None)]
        )

    def test_shards_are_asked_for_one_by_one(self):
        asked = Asked(shard(self.MANY, 1))
        entries = kombilad.list_folder(asked.get, next(iter(asked)))
        self.assertEqual(asked.cids, [])
        counts = []
        for _ in entries:
            counts.append(len(asked.cids))
        self.assertEqual(len(counts), len(self.MANY))
        self.assertEqual(counts, sorted(counts))
        self.assertGreater(counts[-1], 200)
        self.assertLess(counts[100], 20)
        leaves = {Cid(it.cid) for it in self.MANY.values()}
        self.assertEqual(leaves & set(asked.cids), set())

    def test_bad_folders(self):
        for kind, node in BAD_FOLDERS:
            found, error = listed(node)
            self.assertIn(error.name, FAULTS[kind])
            self.assertEqual((found, error.cid), ([], Cid(node.cid)))
            if error.name in OF_LINKS:
                number = len(node.links) - 1
                self.assertEqual((error.place, error.offset), (number, None))
                self.assertIn(f", at link {number}, in block {error.cid}", str(error))
                copied = pickle.loads(pickle.dumps(error))
                self.assertEqual((copied.place, str(copied)), (number, str(error)))
            else:
                self.assertIsNone(error.place)
            with self.assertRaises(kombilad.KombiladError) as raised:
                kombilad.resolve(blocks_of(node).get, Cid(node.cid), "a/b")
            self.assertEqual(
                (raised.exception.name, raised.exception.place, raised.exception.cid),
                (error.name, error.place, error.cid),
            )
        for name in BAD_NAMES:
            for write in folder, shard:
                _, error = listed(write({b"!": A, name: A}, 1))
                self.assertIn(error.name, ("FOLDER_INVALID_NAME", "PB_UTF8"))
        self.assertEqual(listed(A)[1].name, "FOLDER_CODEC")

    def test_bad_shards(self):
        """Shards whose bit fields are those of their slots, and shards below others."""

        def shard_of(links):
            bits = sum(1 << slot for slot in {int(name[:2], 16) for name, _ in links})
            field = bits.to_bytes((bits.bit_length() + 7) // 8, "big")
            message = data_message(unixfs.SHARD, field, hash_type=0x22, fanout=256)
            return unixfs.node(1, message, links)

        slot = unixfs.murmur3(b"name")[0]
        wrong = shard_of([(b"%02X" % (slot ^ 1) + b"name", A)])
        self.assertEqual((listed(wrong)[1].name, listed(wrong)[1].place), ("FOLDER_WRONG_SLOT", 0))
        below = shard_of([(b"%02X" % slot, folder({b"name": A}))])
        at = Cid(folder({b"name": A}).cid)
        self.assertEqual((listed(below)[1].name, listed(below)[1].cid), ("FOLDER_NOT_SHARD", at))
        deep = shard({})
        for _ in range(8):
            deep = shard_of([(b"00", deep)])
        self.assertEqual(listed(deep)[1].name, "FOLDER_TOO_DEEP")

    def test_hostile_sources(self):
        node = shard(self.MANY, 1)
        blocks = {cid: it for cid, it in blocks_of(node).items() if cid.codec == kombilad.DAG_PB}
        whole = expected_entries(node)
        for cid in [Cid(node.cid), *random.Random(6).sample(list(blocks), 2)]:
            for get, expected in hostile_sources(blocks, cid):
                found = []
                with self.assertRaises(expected) as raised:
                    for it in kombilad.list_folder(get, Cid(node.cid)):
                        found.append((it.name.encode(), bytes(it.cid)))
                self.assertEqual(found, whole[: len(found)])
                self.assertEqual(getattr(raised.exception, "cid", cid), cid)

    def test_a_source_that_lists_on(self):
        entries = kombilad.list_folder(lambda cid: next(entries), Cid(ROOT.cid))
        self.assertRaises(ValueError, list, entries)

    def test_paths(self):
        inner = shard(
            {**self.MANY, b"b": folder({"é ü".encode(): A}, 1), b"link": symlink(b"b")}, 1
        )
        node = folder({b"a": inner, b"file": A, b"link": symlink(b"a")})
        asked = Asked(node)
        reader = Reader(dict(unixfs.blocks_of(node)))
        for path in "a", "a/17", "/a/17", "a/17/", "//a///17/", "a/b", "a/b/é ü", "a/link", "link":
            asked.cids.clear()
            names = [it.encode() for it in path.split("/") if it]
            found = kombilad.resolve(asked.get, Cid(node.cid), path)
            self.assertEqual(bytes(found), reader.at(node.cid, names))
            steps, at = [], node.cid
            for name in names:
                *through, at = reader.steps(at, name)
                steps += through
            self.assertEqual(asked.cids, [Cid(it) for it in steps])
        for name in self.MANY:
            found = kombilad.resolve(asked.get, Cid(inner.cid), name.decode())
            self.assertEqual(bytes(found), self.MANY[name].cid)
        for path in "", "/":
            self.assertEqual(kombilad.resolve({}.get, Cid(node.cid), path), Cid(node.cid))

    def test_missing_entries(self):
        inner = shard(self.MANY, 1)
        node = folder({b"a": inner, b"file": A, b"link": symlink(b"a")})
        blocks = blocks_of(node)
        for path, at, missing in (
            ("nope", node, "nope"),
            ("a/nope/x", inner, "a/nope"),
            ("/a/17x", inner, "a/17x"),
            (".", node, "."),
            ("..", node, ".."),
            ("a/../a", inner, "a/.."),
            ("./a", node, "."),
            ("x\0y", node, "x\0y"),
            ("y" * 10_000, node, "y" * 10_000),
        ):
            with self.assertRaises(kombilad.MissingEntryError) as raised:
                kombilad.resolve(blocks.get, Cid(node.cid), path)
            error = raised.exception
            self.assertEqual((error.path, error.cid), (missing, Cid(at.cid)))
            self.assertIsInstance(error, LookupError)
            self.assertLess(len(str(error)), 500)
            copied = pickle.loads(pickle.dumps(error))
            self.assertEqual((copied.path, copied.cid), (error.path, error.cid))
        for path in "file/x", "link/17":
            with self.assertRaises(kombilad.FileError) as raised:
                kombilad.resolve(blocks.get, Cid(node.cid), path)
            self.assertIn(raised.exception.name, ("FOLDER_CODEC", "FOLDER_NOT_FOLDER"))
        with self.assertRaises(kombilad.TextError) as raised:
            kombilad.resolve(blocks.get, Cid(node.cid), "a/\ud800")
        self.assertEqual(raised.exception.name, "TEXT_UTF8")
        self.assertRaises(TypeError, kombilad.resolve, blocks.get, Cid(node.cid), b"a")

    def test_hostile_sources_of_a_path(self):
        node = shard(self.MANY, 1)
        reader = Reader(dict(unixfs.blocks_of(node)))
        *steps, target = reader.steps(node.cid, b"17")
        self.assertGreater(len(steps), 1)
        blocks = blocks_of(node)
        for cid in steps:
            for get, expected in hostile_sources(blocks, Cid(cid)):
                with self.assertRaises(expected) as raised:
                    kombilad.resolve(get, Cid(node.cid), "17")
                self.assertEqual(getattr(raised.exception, "cid", Cid(cid)), Cid(cid))
        views = {cid: memoryview(bytearray(it)) for cid, it in blocks.items()}
        self.assertEqual(bytes(kombilad.resolve(views.get, Cid(node.cid), "17")), target)


class Nodes(unittest.TestCase):
    def node(self, node):
        found = kombilad.read_node(Cid(node.cid), node.block.data)
        self.assertIs(type(found.kind), NodeKind)
        return found

    def test_kinds(self):
        for node, expected in (
            (A, Node(NodeKind.RAW, 2, None, None, None)),
            (file_of(b"text"), Node(NodeKind.FILE, 4, None, None, None)),
            (file_of(CONTENT), Node(NodeKind.FILE, len(CONTENT), None, None, None)),
            (unixfs.leaf(1, b"old", unixfs.RAW_DATA), Node(NodeKind.RAW, 3, None, None, None)),
            (folder({b"a": A}), Node(NodeKind.FOLDER, None, None, None, None)),
            (shard({b"a": A}), Node(NodeKind.SHARD, None, None, None, None)),
            (symlink(b"../a"), Node(NodeKind.SYMLINK, None, None, None, b"../a")),
            (
                unixfs.node(1, data_message(METADATA)),
                Node(NodeKind.METADATA, None, None, None, None),
            ),
        ):
            self.assertEqual(self.node(node), expected)

    def test_sizes_that_are_too_large(self):
        self.assertIsNone(self.node(file_node([A, A], [2**63, 2**63])).size)

    def test_modes_and_times(self):
        for mode in None, 0, 0o644, 0o7777, 2**32 - 1:
            for time in None, (0,), (1,), (-1, 5), (1_700_000_000, 999_999_999), (2**63 - 1, 1):
                ns = None if time is None else time[0] * 10**9 + (*time, 0)[1]
                more = {"mode": mode, "mtime": time}
                for node in file_of(b"text", **more), folder({}, **more), symlink(b"a", **more):
                    found = self.node(node)
                    self.assertEqual((found.mode, found.mtime_ns), (mode, ns))
        self.assertEqual(self.node(folder({}, mtime=(-(2**63),))).mtime_ns, -(2**63) * 10**9)

    def test_targets(self):
        for size in 0, 1, 255, 256, 257, 4095, 100_000:
            self.assertEqual(self.node(symlink(bytes(size))).target, bytes(size))
        self.assertEqual(self.node(symlink(None)).target, b"")
        self.assertEqual(self.node(symlink(b"\xff/\n")).target, b"\xff/\n")

    def test_errors(self):
        for node, name in (
            (unixfs.node(1, None), "FILE_NO_DATA"),
            (unixfs.node(1, number_field(1, 6)), "UNIXFS_UNKNOWN_TYPE"),
            (unixfs.node(1, b""), "UNIXFS_NO_TYPE"),
            (unixfs.node(1, data_message(1)[:-1]), "UNIXFS_END"),
        ):
            with self.assertRaises(kombilad.FileError) as raised:
                kombilad.read_node(Cid(node.cid), node.block.data)
            self.assertEqual((raised.exception.name, raised.exception.cid), (name, Cid(node.cid)))
        cid = Cid.of_block(b"\xa0")
        for given, block, expected in (
            (cid, b"\xa0", "FILE_CODEC"),
            (cid, b"\xa1", "WRONG_DIGEST"),
            (Cid.of_block(b"\x18\x01", 0x70), b"\x18\x01", "PB_UNKNOWN_FIELD"),
        ):
            with self.assertRaises(kombilad.KombiladError) as raised:
                kombilad.read_node(given, block)
            self.assertEqual((raised.exception.name, raised.exception.cid), (expected, given))
        self.assertRaises(TypeError, kombilad.read_node, cid, "text")


class Unpacked(unittest.TestCase):
    """Tests of unpack, next to the reader and with the cases of `ipld unpack`."""

    SIZE = 1 << 20

    def setUp(self):
        folder = tempfile.TemporaryDirectory(prefix="kombilad-")
        self.addCleanup(folder.cleanup)
        self.work = pathlib.Path(folder.name).resolve()
        self.dir = self.work / "dir"
        self.count = 0

    def unpack(self, node, **options):
        """Unpacks a node to a new folder, and returns its path."""
        self.count += 1
        path = self.work / f"dir{self.count}"
        kombilad.unpack(blocks_of(node).get, Cid(node.cid), path, **options)
        self.assertEqual([it for it in os.listdir(self.work) if it.startswith(".")], [])
        return path

    def refused(self, node, expected, **options):
        """Returns the exception of unpacking a node, which leaves nothing."""
        before = sorted(os.listdir(self.work))
        with self.assertRaises(expected) as raised:
            kombilad.unpack(blocks_of(node).get, Cid(node.cid), self.dir, **options)
        self.assertEqual(sorted(os.listdir(self.work)), before)
        return raised.exception

    def test_random_folders(self):
        source = Source(7)
        for _ in range(40):
            made = source.folder()
            whole, inside = tree_of(made), tree_of(made, lambda *it: not leads_out(*it))
            self.assertEqual(tree(self.unpack(made.node, symlinks="any")), whole)
            self.assertEqual(tree(self.unpack(made.node, symlinks="skip")), inside)
            if inside == whole:
                self.assertEqual(tree(self.unpack(made.node)), whole)
            else:
                self.refused(made.node, kombilad.SymlinkError)

    def test_each_kind(self):
        self.assertEqual(
            tree(self.unpack(ROOT)), Expected(dict(unixfs.blocks_of(ROOT))).tree(ROOT.cid)
        )
        for node in folder({}), folder({}, 1), shard({}, 1):
            self.assertEqual(tree(self.unpack(node)), {})
        for write in folder, shard:
            names = write({name: A for name in GOOD_NAMES}, 1)
            self.assertEqual(tree(self.unpack(names)), {name: b"aa" for name in GOOD_NAMES})

    def test_a_file(self):
        for profile in PROFILES:
            for content in b"", CONTENT:
                path = self.unpack(file_of(content, profile))
                self.assertEqual((path.read_bytes(), path.is_symlink()), (content, False))
        path = self.unpack(file_of(b"a", mode=0o4601, mtime=(5, 7)), preserve=True)
        self.assertEqual(path.stat().st_mtime_ns, 5 * 10**9 + 7)
        self.assertEqual(stat.S_IMODE(path.stat().st_mode), 0o601)

    def test_a_link(self):
        """A link alone is in no folder."""
        node = symlink(b"x")
        for symlinks in "inside", "skip":
            error = self.refused(node, kombilad.SymlinkError, symlinks=symlinks)
            self.assertEqual((error.path, error.target, error.cid), ("", b"x", Cid(node.cid)))
        self.assertEqual(os.readlink(self.unpack(node, symlinks="any")), "x")

    def test_blocks_are_asked_for_once(self):
        for node in ROOT, file_of(CONTENT, PROFILES[1]):
            for preserve in False, True:
                asked = Asked(node)
                path = self.work / f"once{preserve}{node.cid}"
                kombilad.unpack(asked.get, Cid(node.cid), path, preserve=preserve)
                repeated = unixfs.blocks_of(node, repeats=True)
                self.assertEqual(sorted(asked.cids), sorted(Cid(it.cid) for it in repeated))

    def test_targets(self):
        folders = [b"one", b"two", b"three"]
        for target, level in itertools.product([*TARGETS, *((it, 9) for it in OUTSIDE)], range(4)):
            (target, least), names = target, folders[:level]
            node = nested(plain((b"link", symlink(target))), *names)
            made, left_out = Target(target), {}
            for name in [b"link", *reversed(names)]:
                made = {name: made}
                left_out = {name: left_out} if name != b"link" else {}
            self.assertEqual(tree(self.unpack(node, symlinks="any")), made)
            if level >= least:
                self.assertEqual(tree(self.unpack(node)), made)
            else:
                error = self.refused(node, kombilad.SymlinkError, symlinks="inside")
                path = "/".join([*map(bytes.decode, names), "link"])
                self.assertEqual((error.path, error.target), (path, target))
                self.assertIn("may lead out", str(error))
                copied = pickle.loads(pickle.dumps(error))
                self.assertEqual((copied.path, str(copied)), (error.path, str(error)))
                self.assertEqual(tree(self.unpack(node, symlinks="skip")), left_out)

    def test_targets_that_no_link_has(self):
        for target, symlinks in itertools.product(NO_TARGETS, ("inside", "skip", "any")):
            node = nested(plain((b"link", symlink(target))), b"in")
            error = self.refused(node, kombilad.SymlinkError, symlinks=symlinks)
            self.assertEqual((error.path, error.target), ("in/link", target or b""))

    def test_many_links(self):
        """More than are kept in memory."""
        node = folder({b"%05d" % number: symlink(b"x" * 1000) for number in range(2_000)})
        self.assertEqual(len(tree(self.unpack(folder({b"a": node, b"b": node})))[b"b"]), 2_000)

    def test_links_are_made_last(self):
        node = folder({b"a": symlink(b"z"), b"b": folder({b"c": symlink(b"../z")}), b"z": A})
        blocks, seen = blocks_of(node), []

        def get(cid):
            seen.extend(
                os.path.join(above, name)
                for above, folders, files in os.walk(self.work)
                for name in folders + files
                if os.path.islink(os.path.join(above, name))
            )
            return blocks[cid]

        kombilad.unpack(get, Cid(node.cid), self.dir)
        self.assertEqual(seen, [])
        self.assertEqual(
            tree(self.dir), {b"a": Target(b"z"), b"b": {b"c": Target(b"../z")}, b"z": b"aa"}
        )

    def test_attributes(self):
        source = Source(8)
        for _ in range(40):
            made = source.folder()
            expected = {}
            messages_of(made, b"", expected)
            path = self.unpack(made.node, preserve=True, symlinks="any")
            found = attributes(path)
            self.assertEqual(set(found), set(expected))
            for at, (node, default) in expected.items():
                mode = default if node.mode is None else node.mode & 0o777
                self.assertEqual(found[at][0], mode)
                if node.mtime_ns is not None and 0 <= node.mtime_ns < 2**33 * 10**9:
                    self.assertEqual(found[at][1], node.mtime_ns)
                elif node.mtime_ns is None or node.mtime_ns < 0:
                    self.assertGreater(found[at][1], 1_600_000_000 * 10**9)
            self.assertEqual(tree(path), tree_of(made))
            plainly = attributes(self.unpack(made.node, symlinks="any"))
            self.assertEqual(
                {it for it, _ in plainly.values()}, {it for _, it in expected.values()}
            )

    def test_closed_folders(self):
        for mode in 0o000, 0o100, 0o400, 0o555:
            closed = folder({b"file": A, b"link": symlink(b"file")}, 1, mode=mode, mtime=(1,))
            node = folder({b"in": folder({b"in": closed}, 1, mode=mode)}, 1, mode=mode, mtime=(2,))
            path = self.unpack(node, preserve=True)
            found = attributes(path)
            self.assertEqual({found[it][0] for it in (b"", b"/in", b"/in/in")}, {mode})
            self.assertEqual((found[b"/in/in"][1], found[b""][1]), (10**9, 2 * 10**9))
            bad = folder({b"a": node, b"b": symlink(b"/")}, mode=mode)
            self.refused(bad, kombilad.SymlinkError, preserve=True)

    def test_names(self):
        for name, it, write in itertools.product(BAD_NAMES, [A, folder({})], [folder, shard]):
            bad = write({name: it}, 1)
            for node in bad, nested(bad, b"in"):
                self.assertEqual(self.refused(node, kombilad.KombiladError).cid, Cid(bad.cid))
        bad = plain((b"a", symlink(b"b")), (b"a", folder({b"x": A})))
        self.assertEqual(self.refused(bad, kombilad.FileError, symlinks="any").place, 1)
        long = plain((b"x" * 256, A))
        self.refused(long, OSError)

    def test_nodes(self):
        kinds = [it for kind, it in BAD_FILES if kind != "NotAFile"]
        kinds += [it for kind, it in BAD_FOLDERS if kind != "NotAFolder"]
        kinds += [unixfs.node(1, data_message(METADATA)), unixfs.node(1, data_message(6))]
        for bad, preserve in itertools.product(kinds, (False, True)):
            for node in bad, plain((b"a", A), (b"bad", bad)), nested(bad, b"in", b"in"):
                error = self.refused(node, kombilad.KombiladError, preserve=preserve)
                self.assertEqual(error.cid, Cid(bad.cid))

    def test_hostile_folders(self):
        choose, done = random.Random(9), 0
        for _ in range(150):
            root = hostile(choose)
            blocks = dict(unixfs.blocks_of(root))
            try:
                expected = Expected(blocks).tree(root.cid)
            except (Fault, LeadsOut) as why:
                error = self.refused(root, (kombilad.KombiladError, kombilad.SymlinkError))
                if isinstance(why, LeadsOut):
                    self.assertEqual(f"dir/{error.path}".encode(), why.args[0])
                else:
                    self.assertEqual(bytes(error.cid), why.cid)
            else:
                self.assertEqual(tree(self.unpack(root)), expected)
                done += 1
        self.assertGreater(done, 20)

    def test_hostile_sources(self):
        node = plain(
            (b"many", INSIDE[b"many"]), (b"tall", INSIDE[b"tall"]), (b"x", symlink(b"tall"))
        )
        blocks = blocks_of(node)
        for cid in random.Random(10).sample(list(blocks), 20):
            for get, expected in hostile_sources(blocks, cid):
                before = sorted(os.listdir(self.work))
                with self.assertRaises(expected) as raised:
                    kombilad.unpack(get, Cid(node.cid), self.dir)
                self.assertEqual(getattr(raised.exception, "cid", cid), cid)
                self.assertEqual(sorted(os.listdir(self.work)), before)

    def test_blocks_in_their_cids(self):
        raw = A._replace(block=Block(cid_of(RAW, b"aa", IDENTITY), b"aa"))
        self.assertEqual(tree(self.unpack(plain((b"raw", raw)))), {b"raw": b"aa"})

    def test_the_size(self):
        for node, size in (
            (folder({}), 0),
            (plain((b"a", file_of(bytes(5000))), (b"b", file_of(bytes(5000)))), 10_000),
            (shard({b"%d" % number: file_of(bytes(100)) for number in range(100)}, 1), 10_000),
            (folder({b"a": folder({}), b"b": shard({}, 1), b"c": symlink(b"x")}), 0),
            (file_of(CONTENT), len(CONTENT)),
        ):
            path = self.unpack(node)
            size += 4096 * (count_of(tree(path)) if path.is_dir() else 0)
            self.unpack(node, max_bytes=size)
            self.unpack(node, max_bytes=None)
            if size:
                error = self.refused(node, kombilad.FileError, max_bytes=size - 1)
                self.assertEqual(error.name, "FILE_TOO_LARGE")

    def test_bombs(self):
        empty, full = raw_leaf(b""), raw_leaf(bytes(1000))
        for _ in range(30):
            empty, full = parent(1, [empty, empty]), parent(1, [full, full])
        for leaf in plain(), symlink(b"x"), file_of(b""):
            root = leaf
            for _ in range(24):
                root = plain((b"a", root), (b"b", root))
            error = self.refused(root, kombilad.FileError, max_bytes=self.SIZE)
            self.assertEqual(error.name, "FILE_TOO_LARGE")
        error = self.refused(plain((b"file", full)), kombilad.FileError, max_bytes=self.SIZE)
        self.assertEqual((error.name, error.cid), ("FILE_TOO_LARGE", Cid(full.cid)))
        for root in plain((b"file", empty)), empty:
            error = self.refused(root, kombilad.FileError)
            self.assertEqual(error.name, "FILE_TOO_MANY_BLOCKS")
        message = data_message(unixfs.SHARD, bytes([255]) * 32, hash_type=0x22, fanout=256)
        root = shard({}, 1)
        for _ in range(7):
            root = unixfs.node(1, message, [(b"%02X" % slot, root) for slot in range(256)])
        self.assertEqual(self.refused(root, kombilad.FileError).name, "FILE_TOO_MANY_BLOCKS")

    def test_deep_folders(self):
        root, entries = plain((b"x", A)), {b"x": b"aa"}
        for level in range(1, 3001):
            root = plain((b"d", root))
            if level in (1, 600):
                path = self.unpack(root, max_depth=level)
                found = 0
                while (path / "d").is_dir():
                    path, found = path / "d", found + 1
                self.assertEqual((found, tree(path)), (level, entries))
                error = self.refused(root, kombilad.FileError, max_depth=level - 1)
                self.assertEqual(error.name, "FILE_TOO_DEEP")
        self.assertEqual(self.refused(root, kombilad.FileError).name, "FILE_TOO_DEEP")
        self.refused(root, OSError, max_depth=None)

    def test_paths(self):
        node, cid = folder({b"a": A}), Cid(folder({b"a": A}).cid)
        get = blocks_of(node).get
        (self.work / "sub").mkdir()
        (self.work / "to").symlink_to("sub")
        before = os.getcwd()
        os.chdir(self.work)
        self.addCleanup(os.chdir, before)
        for path in "new", "sub/new", "./new2", "to/new3", "new4/", "x" * 255, "é", "-rf":
            kombilad.unpack(get, cid, path)
            self.assertEqual(tree(path), {b"a": b"aa"})
        (self.work / "file").write_bytes(b"stays")
        (self.work / "dangling").symlink_to("no-such")
        left = sorted(os.listdir(self.work))
        for path in "new", "new/", "sub", "file", "dangling", "to", ".", "..", "/", "sub/..":
            self.assertRaises(FileExistsError, kombilad.unpack, get, cid, path)
        for path in "no/new", "", "no/..", "no/new/":
            self.assertRaises(FileNotFoundError, kombilad.unpack, get, cid, path)
        self.assertRaises(NotADirectoryError, kombilad.unpack, get, cid, "file/new")
        self.assertRaises(OSError, kombilad.unpack, get, cid, "x" * 256)
        self.assertRaises(ValueError, kombilad.unpack, get, cid, "a\0b")
        self.assertRaises(ValueError, kombilad.unpack, get, cid, "new9", symlinks="all")
        self.assertEqual(sorted(os.listdir(self.work)), left)

    def test_what_comes_meanwhile(self):
        for make in (
            self.dir.mkdir,
            lambda: self.dir.write_bytes(b"came"),
            lambda: self.dir.symlink_to("no-such"),
        ):
            for node in folder({b"a": A}), file_of(b"text"):
                blocks = blocks_of(node)

                def get(cid):
                    if not os.path.lexists(self.dir):
                        make()
                    (top,) = self.work.glob(".kombilad-*")
                    self.assertEqual(stat.S_IMODE(top.lstat().st_mode), 0o700)
                    return blocks[cid]

                with self.assertRaises(FileExistsError):
                    kombilad.unpack(get, Cid(node.cid), self.dir)
                self.assertEqual(os.listdir(self.work), ["dir"])
                if self.dir.is_dir():
                    self.dir.rmdir()
                else:
                    self.dir.unlink()

    def test_an_interrupt(self):
        def get(cid):
            if cid == Cid(B.cid):
                raise KeyboardInterrupt
            return blocks[cid]

        node = folder({b"a": folder({b"a": A}), b"b": B})
        blocks = blocks_of(node)
        self.assertRaises(KeyboardInterrupt, kombilad.unpack, get, Cid(node.cid), self.dir)
        self.assertEqual(os.listdir(self.work), [])


def messages_of(made, path, found):
    """Finds the node of each file and folder, and its permissions by default, by path."""
    found[path] = (
        kombilad.read_node(Cid(made.node.cid), made.node.block.data),
        0o777 & ~UMASK if isinstance(made, Folder) else 0o666 & ~UMASK,
    )
    if isinstance(made, Folder):
        for name, it in made.entries.items():
            if isinstance(it, (Folder, File)):
                messages_of(it, path + b"/" + name, found)


UMASK = os.umask(0)
os.umask(UMASK)


class Client(unittest.TestCase):
    """The client, against a gateway on the loopback address."""

    def fetch(self, lie=None, without=None):
        node = file_of(CONTENT, DEFAULT)
        blocks = {bytes(cid): block for cid, block in blocks_of(node).items()}
        if without is not None:
            del blocks[list(blocks)[without]]
        with Gateway(blocks, lie) as gateway:
            return subprocess.run(
                [sys.executable, FETCH, gateway.url, str(Cid(node.cid))],
                stdout=subprocess.PIPE,
                stderr=subprocess.PIPE,
                timeout=60,
                check=False,
            )

    def test_an_honest_gateway(self):
        done = self.fetch()
        self.assertEqual((done.returncode, done.stdout, done.stderr), (0, CONTENT, b""))

    def test_dishonest_gateways(self):
        for lie in Lie.OTHER_BLOCK, Lie.CHANGED_BYTE, Lie.CUT_IN_BLOCK, Lie.ENDLESS, Lie.EMPTY_BODY:
            done = self.fetch(lie)
            self.assertEqual(done.returncode, 1, lie)
            self.assertEqual(done.stdout, b"", lie)
            self.assertTrue(done.stderr.startswith(b"fetch_file: "), done.stderr)

    def test_a_missing_block(self):
        done = self.fetch(without=3)
        self.assertEqual((done.returncode, done.stdout), (1, CONTENT[: 2 * 262_144]))
        self.assertIn(b"is missing", done.stderr)


if __name__ == "__main__":
    unittest.main()
