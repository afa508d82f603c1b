"""Tests of `ipld ls`, with folders that `unixfs.py` writes and `unixfs_reader.py` reads."""

import itertools
import json

from . import damaged
from .bad_unixfs import BAD_FOLDERS, A, B, shard_node
from .blocks import HELLO
from .formats import Block, car
from .program import ProgramTest
from .random_unixfs import Source
from .rows import CHECK_FAILED, DONE, ERROR, Row, lines
from .test_salvage import changed
from .unixfs import (
    DIRECTORY,
    FANOUT,
    MURMUR3,
    RAW_LEAVES,
    SHARD,
    blocks_of,
    car_of,
    data_message,
    file_of,
    folder,
    murmur3,
    node,
    shard,
    symlink,
)
from .unixfs_reader import Fault, Reader

SEED, COUNT = 0x15, 60
MANY = 2000
BIG = file_of(bytes(1000), RAW_LEAVES._replace(chunk=100, width=3))
ENTRIES = {
    b"a file": file_of(b"text"),
    b"big": BIG,
    b"empty": file_of(b""),
    b"folder": folder({b"x": file_of(b"x")}),
    b"link": symlink(b"folder/x"),
    b"raw": file_of(b"raw", RAW_LEAVES),
    b"sharded": shard({b"%d" % number: file_of(b"y") for number in range(300)}, 1),
    "ü".encode(): folder({}, 1),
}
WRITERS = (folder, shard)
# Names with control characters, which a terminal would obey.
CONTROLS = ["new\nline", "tab\tulator", "\x1b[2Jcleared", "\x7f", "\x9b31m", "\r", "\u200f"]


def listed(reader, cid):
    """
    Returns the name, the type, the size and the CID of each entry of a folder. Only files have a
    size. The type of an entry whose block is missing is `?`.
    """
    entries = []
    for name, target in reader.entries(cid):
        try:
            kind, size = reader.kind(target)
        except Fault as fault:
            if fault.kind != "Missing":
                raise
            kind, size = "?", None
        entries.append((name.decode(), kind, size if kind == "file" else None, str(target)))
    return entries


def colliding(length):
    """Returns two names whose hashes begin with the same bytes, so many of them."""
    found = {}
    for number in itertools.count():
        name = b"%d" % number
        other = found.setdefault(murmur3(name)[:length], name)
        if other != name:
            return other, name


class LsTest(ProgramTest):
    def write(self, data):
        (self.folder / "some.car").write_bytes(data)

    def check_listing(self, reader, cid, arguments=("some.car",), **options):
        """
        Fails unless the program lists what the reader finds, in each form. The entries of a plain
        folder are in the order of their names, and those of a sharded one in any order.
        """
        entries = listed(reader, cid)
        in_order = reader.node(cid)[1].kind == DIRECTORY

        def ordered(values):
            return values if in_order else sorted(values, key=str)

        def output(*words):
            run = self.run_program(["ls", *words, *map(str, arguments)], **options)
            self.assertEqual((run.err, run.status), (b"", DONE))
            return run.out.decode()

        def lines_of(text):
            *whole, rest = text.split("\n")
            self.assertEqual(rest, "")
            return ordered(whole)

        self.assertEqual(lines_of(output()), ordered([name for name, *_ in entries]))
        rows = [
            "\t".join([kind, "-" if size is None else str(size), cid, name])
            for name, kind, size, cid in entries
        ]
        self.assertEqual(lines_of(output("-l")), ordered(rows))
        self.check_objects(output("--json"), entries, ordered)

    def check_objects(self, text, entries, ordered=list):
        """Fails unless a text has a line of JSON for each entry. A size may be missing or null."""
        objects = [json.loads(line) for line in text.splitlines()]
        self.assertEqual(
            ordered([(it["name"], it["type"], it.get("size"), it["cid"]) for it in objects]),
            ordered(entries),
        )

    def check_stops(self, arguments, cid):
        """Fails unless the program reports an error at a CID. Returns what it printed."""
        run = self.run_program(["ls", *map(str, arguments)])
        self.assertEqual(run.status, CHECK_FAILED, run.err)
        self.assertIn(str(cid), run.err.decode())
        return run.out.decode()


class ListingTest(LsTest):
    def test_kinds_of_entries(self):
        for write, version in itertools.product(WRITERS, (0, 1)):
            root = write(ENTRIES, version)
            self.write(car_of(root))
            with self.subTest(write=write.__name__, version=version):
                self.check_listing(Reader(dict(blocks_of(root))), root.cid)

    def test_lines(self):
        """The lines of a folder, written out."""
        root = folder({it: ENTRIES[it] for it in (b"big", b"folder", b"link", b"raw")})
        self.write(
            car([root.cid], [it for it in blocks_of(root) if it.cid != root.links[1][1].cid])
        )
        cids = [it.cid for _, it in root.links]
        self.check(Row("ls some.car", lines("big", "folder", "link", "raw")))
        self.check(
            Row(
                "ls -l some.car",
                f"file\t1000\t{cids[0]}\tbig\n"
                f"?\t-\t{cids[1]}\tfolder\n"
                f"link\t-\t{cids[2]}\tlink\n"
                f"file\t3\t{cids[3]}\traw\n",
            )
        )

    def test_recursive(self):
        """A folder comes before those in it, and each of these before the next."""
        text = file_of(b"text")
        inner = folder({b"x": text, b"y": folder({b"z": text})})
        root = folder({b"a": inner, b"b": text, b"c": folder({}), b"d": shard({b"e": inner}, 1)})
        self.write(car_of(root))
        paths = "a b c d a/x a/y a/y/z d/e d/e/x d/e/y d/e/y/z".split()
        self.check(Row("ls -R some.car", lines(*paths)))
        self.check(Row("ls --recursive some.car d/e", lines("x", "y", "y/z")))
        run = self.run_program("ls -R --json some.car a")
        self.assertEqual([json.loads(it)["name"] for it in run.out.splitlines()], ["x", "y", "y/z"])

    def test_random_folders(self):
        source = Source(SEED)
        for number in range(COUNT):
            made = source.folder()
            self.write(car_of(made.node, repeats=number % 2 == 0))
            with self.subTest(number=number, root=str(made.node.cid)):
                self.check_listing(Reader(dict(blocks_of(made.node))), made.node.cid)

    def test_large_folders(self):
        source = Source(SEED)
        for is_sharded in False, True:
            root = source.folder(0, MANY, is_sharded).node
            self.write(car_of(root))
            with self.subTest(is_sharded=is_sharded):
                self.check_listing(Reader(dict(blocks_of(root))), root.cid)

    def test_empty_folders(self):
        for root in folder({}), folder({}, 1), shard({}, 1):
            self.write(car_of(root))
            for words in "ls some.car", "ls -l some.car", "ls --json some.car":
                self.check(Row(words))

    def test_a_deep_shard(self):
        for length in 1, 2, 3:
            root = shard({name: file_of(name) for name in colliding(length)}, 1)
            self.assertGreater(len(blocks_of(root)), length + 2)
            self.write(car_of(root))
            self.check_listing(Reader(dict(blocks_of(root))), root.cid)

    def test_paths(self):
        inside = {b"plain": folder(ENTRIES), b"sharded": shard(ENTRIES, 1)}
        odd = "it's \"ü\\"
        root = folder({b"in": shard(inside, 1), odd.encode(): inside[b"plain"]})
        self.write(car_of(root))
        reader = Reader(dict(blocks_of(root)))
        for path in "/in", "/in/plain", "/in/sharded", "/in/plain/folder", f"/{odd}":
            cid = reader.at(root.cid, [it.encode() for it in path.split("/")[1:]])
            for word in path, f"{root.cid}{path}", str(cid):
                with self.subTest(path=word):
                    self.check_listing(reader, cid, ["some.car", word])

    def test_modes_and_times(self):
        for write in WRITERS:
            root = write(ENTRIES, 1, mode=0o755, mtime=(1, 2))
            self.write(car_of(root))
            self.check_listing(Reader(dict(blocks_of(root))), root.cid)

    def test_standard_input(self):
        for write in WRITERS:
            root = write(ENTRIES, 1)
            for repeats in False, True:
                self.check_listing(
                    Reader(dict(blocks_of(root))), root.cid, ["-"], input=car_of(root, repeats)
                )

    def test_entries_that_are_missing(self):
        """Only the blocks of the folder itself are needed, and those of the entries for -l."""
        for write in WRITERS:
            root = write(ENTRIES, 1)
            below = {it.cid for entry in ENTRIES.values() for it in blocks_of(entry)}
            own = [it for it in blocks_of(root) if it.cid not in below]
            self.write(car([root.cid], own))
            reader = Reader(dict(own))
            self.assertEqual({kind for _, kind, _, _ in listed(reader, root.cid)}, {"?"})
            self.check_listing(reader, root.cid)

    def test_control_characters(self):
        for write in WRITERS:
            root = write({name.encode(): A for name in CONTROLS})
            self.write(car_of(root))
            entries = listed(Reader(dict(blocks_of(root))), root.cid)
            run = self.run_program("ls --json some.car")
            self.check_objects(run.out.decode(), entries, sorted)
            for words in "ls some.car", "ls -l some.car":
                text = self.run_program(words).out.decode()
                self.assertEqual(text.count("\n"), len(CONTROLS))
                controls = {it for it in text if ord(it) < 32 or 127 <= ord(it) < 160}
                self.assertLessEqual(controls, {"\n", "\t"})
                self.assertEqual(
                    text.count("\t"), 0 if words == "ls some.car" else 3 * len(CONTROLS)
                )


class FaultTest(LsTest):
    def test_nodes_that_are_not_folders(self):
        for kind, root in BAD_FOLDERS:
            self.write(car_of(root))
            with self.subTest(kind=kind, data=root.block.data.hex()):
                self.check_stops(["some.car"], root.cid)

    def test_shards_below(self):
        """Nodes below a shard that are not shards, or not those of their place."""
        one, two = colliding(1)
        slot = murmur3(one)[0]
        field = (1 << slot).to_bytes(slot // 8 + 1, "big")
        message = data_message(SHARD, field, hash_type=MURMUR3, fanout=FANOUT)
        whole = shard({one: A, two: A}, 1)
        ((label, below),) = whole.links
        others = [folder({one: A}, 1), file_of(b""), symlink(b"x"), shard({b"other": A}, 1)]
        for bad, at in [*((it, it) for it in others), (whole, below)]:
            root = node(1, message, [(label, bad)])
            self.write(car_of(root))
            with self.subTest(data=bad.block.data.hex()):
                with self.assertRaises(Fault) as raised:
                    Reader(dict(blocks_of(root))).entries(root.cid)
                self.assertEqual(raised.exception.cid, at.cid)
                self.check_stops(["some.car"], at.cid)
        root = node(1, message, [(label, below)])
        self.write(car_of(root))
        self.check_listing(Reader(dict(blocks_of(root))), root.cid)

    def test_missing_and_changed_shards(self):
        root = shard({b"%d" % number: A for number in range(100)}, 1)
        names = {name.decode() for name, _ in Reader(dict(blocks_of(root))).entries(root.cid)}
        shards = [it for it in blocks_of(root) if it.cid != A.cid]
        for it in shards:
            # The last of these is a shard too, with other entries of the same names.
            end = changed(it.data, len(it.data) - 1)
            for data in None, end, it.data + b"x", b"", it.data.replace(A.cid, B.cid):
                self.assertNotEqual(data, it.data)
                others = [other for other in shards if other != it]
                self.write(car([root.cid], others + [Block(it.cid, data)] * (data is not None)))
                with self.subTest(cid=str(it.cid), data=data):
                    printed = self.check_stops(["some.car"], it.cid)
                    self.assertLessEqual(set(printed.split("\n")) - {""}, names)

    def test_another_plain_folder(self):
        root, other = folder({b"a": A}, 1), folder({b"a": B}, 1)
        self.write(car([root.cid], [Block(root.cid, other.block.data), A.block, B.block]))
        self.assertEqual(self.check_stops(["some.car"], root.cid), "")

    def test_changed_entries(self):
        """The block of an entry is read for -l and --json."""
        for write in WRITERS:
            root = write({b"a": file_of(b"text"), b"b": file_of(b"more")}, 1)
            (_, last) = root.links[-1]
            blocks = [it for it in blocks_of(root) if it.cid != last.cid]
            for data in last.block.data[:-1], file_of(b"next").block.data:
                self.write(car([root.cid], [*blocks, Block(last.cid, data)]))
                for words in ["-l", "some.car"], ["--json", "some.car"]:
                    with self.subTest(write=write.__name__, words=words, data=data):
                        self.check_stops(words, last.cid)

    def test_paths(self):
        inside, link = folder(ENTRIES, 1), symlink(b"in")
        root = folder({b"in": inside, b"link": link}, 1)
        self.write(car_of(root))
        for path, cid in [
            ("/no", root.cid),
            ("/in/no", inside.cid),
            ("/in/big", BIG.cid),
            ("/in/big/x", BIG.cid),
            ("/link", link.cid),
            ("/link/big", link.cid),
            ("/in/.", inside.cid),
        ]:
            with self.subTest(path=path):
                self.check_stops(["some.car", path], cid)
        self.check_stops(["some.car", HELLO.cid], HELLO.cid)

    def test_files_that_are_not_read(self):
        for file, status in ("no-such", ERROR), ("plain", CHECK_FAILED):
            run = self.run_program(["ls", file])
            with self.subTest(file=file):
                self.assertEqual((run.out, run.status), (b"", status))
        for roots in [], [BIG.cid, A.cid]:
            self.write(car(roots, [A.block]))
            run = self.run_program("ls some.car")
            self.assertEqual(run.out, b"")
            self.assertIn(run.status, (CHECK_FAILED, ERROR))

    def test_a_full_device(self):
        self.write(car_of(folder(ENTRIES)))
        for words in "ls some.car", "ls -l some.car", "ls --json some.car":
            with open("/dev/full", "wb") as full, self.subTest(ipld=words):
                self.assertEqual(self.run_program(words, stdout=full).status, ERROR)

    def test_many_bad_folders(self):
        """A shard at each of whose slots the name is one of another slot, except at its own."""
        name = b"name"
        for slot in range(0, FANOUT, 5):
            field = (1 << slot).to_bytes(slot // 8 + 1, "big")
            root = shard_node([b"%02X" % slot + name], field)
            self.write(car_of(root))
            if slot == murmur3(name)[0]:
                self.check(Row("ls some.car", lines(name.decode())))
            else:
                self.check_stops(["some.car"], root.cid)


class ChangedByteTest(LsTest):
    def check_each_byte(self, root):
        """Fails unless the program and the reader agree on a CAR, whatever byte of it is changed."""
        whole = car_of(root)
        for at in range(len(whole)):
            data = changed(whole, at)
            found, error = damaged.read(data)
            blocks = {}
            for _, cid, it in found:
                blocks.setdefault(cid, it)
            names, fault = None, Fault("Root", b"")
            if damaged.root_of(data) is not None:
                try:
                    entries = Reader(blocks).entries(damaged.root_of(data))
                    names, fault = sorted(name.decode() for name, _ in entries), None
                except Fault as why:
                    fault = why
            self.write(data)
            run = self.run_program("ls some.car")
            with self.subTest(root=str(root.cid), changed=at):
                if fault is None and not error:
                    self.assertEqual((run.err, run.status), (b"", DONE))
                if run.status == DONE:
                    self.assertIsNone(fault)
                    self.assertEqual(sorted(run.out.decode().splitlines()), names)
                elif not error:
                    self.assertEqual(run.status, CHECK_FAILED)
                    self.assertIn(str(fault.cid), run.err.decode())

    def test_a_plain_folder(self):
        self.check_each_byte(folder({b"a": file_of(b"a"), b"b": A}))

    def test_a_sharded_folder(self):
        self.check_each_byte(shard({name: A for name in colliding(1)}, 1))
