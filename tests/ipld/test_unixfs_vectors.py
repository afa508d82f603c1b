"""Tests of the writer and the reader of UnixFS in this folder. They don't run the program.

The CIDs are those that go-ipfs gives, as the tests of the Rust crate ipfs-unixfs 0.2.0 have them,
and the well-known ones of empty files and folders.
"""

import unittest

from .bad_unixfs import BAD_FILES, BAD_FOLDERS, SHORT, A, B, file_node
from .formats import DAG_CBOR, DAG_PB, IDENTITY, JSON, RAW, Block, cid_of, pb, pb_link
from .random_unixfs import File, Folder, Source, Symlink
from .unixfs import (
    DEFAULT,
    FILE,
    RAW_DATA,
    RAW_LEAVES,
    Profile,
    blocks_of,
    car_of,
    data_message,
    file_of,
    folder,
    leaf,
    murmur3,
    parent,
    shard,
    symlink,
)
from .unixfs_reader import Fault, Reader

SEED, COUNT = 0x1F5, 500
# How many entries of a folder are looked up.
LOOK_UPS = 20
FOOBAR = b"foobar\n"
LOREM = (
    b"Lorem ipsum dolor sit amet, sit enim montes aliquam. Cras non lorem, "
    b"rhoncus condimentum, irure et ante. Pulvinar suscipit odio ante, et tellus a enim, "
    b"wisi ipsum, vel rhoncus eget faucibus varius, luctus turpis nibh vel odio nulla pede."
)


def chunks_of(size, width=DEFAULT.width):
    """Returns the default profile with chunks of another size."""
    return DEFAULT._replace(chunk=size, width=width)


EMPTY = file_of(b"")
BALANCED = file_of(FOOBAR, chunks_of(2))
TRICKLE = parent(0, [leaf(0, it, RAW_DATA) for it in (b"fo", b"ob", b"ar", b"\n")])
TWO_LAYOUTS = folder({b"foobar.balanced": BALANCED, b"foobar.trickle": TRICKLE})
NUMBERS = (16, 37, 58, 9, 38, 50, 49, 4, 25, 34, 41, 33, 17, 40, 3, 48)
LONG_NAMES = [b"long-named-file-%03d" % number for number in NUMBERS]
LONG_NAMED = shard({name: EMPTY for name in LONG_NAMES})
PLAIN_INSIDE = folder({b"foobar": file_of(FOOBAR)})
LINK_AND_FOLDER = folder({b"a": symlink(b"b"), b"b": folder({b"car": file_of(b"car\n")})})

ROOTS = [
    (EMPTY, "QmbFMke1KXqnYyBBWxB74N4c5SBnJMVAiMNRcGu6x1AwQH"),
    (file_of(b"", RAW_LEAVES), "bafkreihdwdcefgh4dqkjv67uzcmw7ojee6xedzdetojuzjevtenxquvyku"),
    (file_of(b"hello world"), "Qmf412jQZiuVUtdgnB36FXFX7xg5V6KEbSJ4dpQuhkLyfD"),
    (
        file_of(b"hello world", RAW_LEAVES),
        "bafkreifzjut3te2nhyekklss27nh3k72ysco7y32koao5eei66wof36n5e",
    ),
    (file_of(FOOBAR), "QmRgutAxd8t7oGkSm4wmeuByG6M51wcTso6cubDdQtuEfL"),
    (BALANCED, "QmRJHYTNvC3hmd9gJQARxLR1QMEincccBV53bBw524yyq6"),
    (TRICKLE, "QmWfQ48ChJUj4vWKFsUDe4646xCBmXgdmNfhjz9T7crywd"),
    (file_of(LOREM, chunks_of(1)), "QmRQ6NZNUs4JrCT2y7tmCC1wUhjqYuTssB8VXbbN3rMffg"),
    (file_of(LOREM, chunks_of(32)), "QmYSLcVQqxKygiq7x9w1XGYxU29EShB8ZemiaQ8GAAw17h"),
    (file_of(bytes(349), chunks_of(2)), "QmcHNWF1d56uCDSfJPA7t9fadZRV9we5HGSTGSmwuqmMP9"),
    (file_of(bytes(174), chunks_of(1)), "QmdgQac8c6Bo3MP5bHAg2yQ25KebFUsmkZFvyByYzf8UCB"),
    (folder({}), "QmUNLLsPACCz1vLxQVkXqqLX5R1X345qqfHbsf67hvA3Nn"),
    (folder({}, 1), "bafybeiczsscdsbs7ffqz55asqdf3smv6klcw3gofszvwlyarci47bgf354"),
    (TWO_LAYOUTS, "QmVkvLsSEm2uJx1h5Fqukje8mMPYg393o5C2kMCkF2bBTA"),
    (
        folder({str(TWO_LAYOUTS.cid).encode(): TWO_LAYOUTS}),
        "QmPTotyhVnnfCu9R4qwR4cdhpi5ENaiP8ZJfdqsm8Dw2jB",
    ),
    (symlink(b"b"), "QmfLJN6HLyREnWr7QQNmgmuNziUhcbwUopkHQ8gD3pMfp6"),
    (symlink(b"foobar"), "QmNgQEdXVdLw79nH2bnxLMxnyWMaXrijfqMTiDVat3iyuz"),
    (LINK_AND_FOLDER, "QmZDVQHwjHwA4SyzEDtJLNxmZeJVK1W8BWFAHV61x2Rs19"),
    (PLAIN_INSIDE, "QmYmmkD3dGZjuozuqSzDYjU4ZyhAgc4T4P4SUgY6qjzBi8"),
    (shard({b"non_sharded_dir": PLAIN_INSIDE}), "QmQXUANxYGpkwMTWQUdZBPx9jqfFP7acNgL4FHRWkndKCe"),
    (LONG_NAMED, "QmZbFPTnDBMWbQ6iBxQAhuhLz8Nu9XptYS96e7cuf5wvbk"),
]

# The first half of the hash of a text by MurmurHash3_x64_128, and the first slots of names.
HASHES = [
    (b"", "0000000000000000"),
    (b"The quick brown fox jumps over the lazy dog", "e34bbc7bbc071b6c"),
    (b"long-named-file-016", "0748"),
    (b"long-named-file-037", "07fb"),
    (b"long-named-file-048", "f185"),
    (b"non_sharded_dir", "fa"),
]


def reader_of(root):
    return Reader(dict(blocks_of(root)))


class VectorTest(unittest.TestCase):
    def test_roots(self):
        for root, cid in ROOTS:
            with self.subTest(cid=cid):
                self.assertEqual(str(root.cid), cid)

    def test_hashes(self):
        for name, begin in HASHES:
            with self.subTest(name=name):
                self.assertEqual(murmur3(name).hex()[: len(begin)], begin)

    def test_an_empty_file(self):
        self.assertEqual(EMPTY.block.data, bytes.fromhex("0a0408021800"))

    def test_a_sharded_folder(self):
        reader, root = reader_of(LONG_NAMED), LONG_NAMED.cid
        self.assertEqual(sorted(reader.entries(root)), sorted((it, EMPTY.cid) for it in LONG_NAMES))
        self.assertEqual(reader.look_up(root, b"long-named-file-016"), EMPTY.cid)
        with self.assertRaises(Fault) as raised:
            reader.look_up(root, b"long-named-file-047")
        self.assertEqual(raised.exception.kind, "NoEntry")

    def test_paths(self):
        reader = reader_of(LINK_AND_FOLDER)
        car_file = reader.at(LINK_AND_FOLDER.cid, [b"b", b"car"])
        self.assertEqual(reader.file(car_file), b"car\n")
        self.assertEqual(reader.kind(symlink(b"b").cid), ("link", b"b"))

    def test_layouts(self):
        for root in BALANCED, TRICKLE:
            self.assertEqual(reader_of(root).file(root.cid), FOOBAR)
        # 175 leaves need two nodes, and the second of them has one link.
        root = file_of(bytes(349), chunks_of(2))
        self.assertEqual([len(it.links) for _, it in root.links], [174, 1])
        root = file_of(b"abcdefghi", chunks_of(1, 2))
        self.assertEqual([it.size for _, it in root.links], [8, 1])

    def test_walks(self):
        self.assertEqual(len(blocks_of(LONG_NAMED)), 10)
        self.assertEqual(len(blocks_of(LONG_NAMED, repeats=True)), 25)
        self.assertEqual(
            blocks_of(BALANCED), [BALANCED.block, *(it.block for _, it in BALANCED.links)]
        )
        self.assertEqual(car_of(EMPTY)[-6:], EMPTY.block.data)


class ReaderTest(unittest.TestCase):
    def check_fault(self, read, cid, kind, at):
        """Fails unless reading a CID raises a fault of a kind, at a CID."""
        with self.assertRaises(Fault) as raised:
            read(cid)
        self.assertEqual((raised.exception.kind, raised.exception.cid), (kind, at))


class RandomTest(ReaderTest):
    def check_made(self, reader, made):
        """Fails unless the reader finds what was made, and everything below it."""
        cid = made.node.cid
        if isinstance(made, File):
            self.assertEqual(reader.file(cid), made.content)
            self.assertEqual(reader.kind(cid), ("file", len(made.content)))
        elif isinstance(made, Symlink):
            self.assertEqual(reader.kind(cid), ("link", made.target))
        elif isinstance(made, Folder):
            self.assertEqual(reader.kind(cid), ("folder", None))
            entries = {name: it.node.cid for name, it in made.entries.items()}
            self.assertEqual(dict(reader.entries(cid)), entries)
            for number, (name, it) in enumerate(made.entries.items()):
                # A look-up in a plain folder reads all of it.
                if number < LOOK_UPS:
                    self.assertEqual(reader.look_up(cid, name), it.node.cid)
                self.check_made(reader, it)

    def test_files_and_folders(self):
        source = Source(SEED)
        for number in range(COUNT):
            made = source.file() if number % 2 else source.folder()
            with self.subTest(number=number, root=str(made.node.cid)):
                self.check_made(reader_of(made.node), made)

    def test_large_folders(self):
        source = Source(SEED)
        for is_sharded in False, True:
            made = source.folder(0, 2000, is_sharded)
            with self.subTest(is_sharded=is_sharded):
                self.check_made(reader_of(made.node), made)

    def test_a_missing_and_a_changed_block(self):
        source = Source(SEED)
        for number in range(50):
            root = source.file().node
            for it in blocks_of(root):
                for kind, data in ("Missing", None), ("Digest", it.data + b"x"):
                    blocks = {**dict(blocks_of(root)), it.cid: data}
                    with self.subTest(number=number, kind=kind, cid=str(it.cid)):
                        self.check_fault(Reader(blocks).file, root.cid, kind, it.cid)


class FaultTest(ReaderTest):
    def test_files(self):
        for kind, root in BAD_FILES:
            with self.subTest(kind=kind, data=root.block.data.hex()):
                self.check_fault(reader_of(root).file, root.cid, kind, root.cid)

    def test_folders(self):
        for kind, root in BAD_FOLDERS:
            with self.subTest(kind=kind, data=root.block.data.hex()):
                self.check_fault(reader_of(root).entries, root.cid, kind, root.cid)

    def test_the_parts_before_a_fault(self):
        root = file_node([A, SHORT, B], [2, 3, 3], filesize=8)
        # SHORT stands for three bytes, as the root has it, and its leaf only for two.
        read = reader_of(root).pieces(root.cid)
        self.assertEqual([next(read) for _ in range(3)], [b"", b"aa", b""])
        self.check_fault(lambda cid: next(read), None, "WrongSize", A.cid)

    def test_codecs(self):
        for codec in DAG_CBOR, JSON:
            cid = cid_of(codec, b"aa")
            self.check_fault(Reader({cid: b"aa"}).file, cid, "Codec", cid)

    def test_a_cid_that_contains_its_block(self):
        cid = cid_of(RAW, b"inside", IDENTITY)
        root = Block(
            cid_of(DAG_PB, pb([pb_link(cid, b"")], data_message(FILE, None, 6, [6]))),
            pb([pb_link(cid, b"")], data_message(FILE, None, 6, [6])),
        )
        self.assertEqual(Reader(dict([root])).file(root.cid), b"inside")

    def test_data_before_and_after_links(self):
        link = pb_link(A.cid, b"")
        before = pb([link], data_message(FILE, None, 2, [2]), data_first=True)
        cid = cid_of(DAG_PB, before)
        self.assertEqual(Reader({cid: before, A.cid: b"aa"}).file(cid), b"aa")
        both = pb([link], data_message(FILE, None, 4, [2, 2])) + pb([link])
        cid = cid_of(DAG_PB, both)
        self.check_fault(Reader({cid: both, A.cid: b"aa"}).file, cid, "FieldOrder", cid)

    def test_modes_and_times(self):
        for profile in Profile(0, False, 4, 2), Profile(1, True, 4, 2):
            for content in b"", b"abcd", b"abcdefghi":
                for mtime in (-1,), (1, 999_999_999), (-(2**63), 1):
                    root = file_of(content, profile, mode=0o644, mtime=mtime)
                    reader = reader_of(root)
                    self.assertEqual(reader.file(root.cid), content)
                    _, message = reader.node(root.cid)
                    self.assertEqual((message.mode, message.mtime), (0o644, (*mtime, 0)[:2]))
