"""Tests of `ipld cat`, with files that `unixfs.py` writes and `unixfs_reader.py` reads."""

import itertools
import random

from ..gateway import Answer, Lie
from . import damaged
from .bad_unixfs import BAD_FILES, SHORT, A, B, file_node
from .blocks import HELLO, LEAF
from .formats import (
    DAG_PB,
    IDENTITY,
    RAW,
    Block,
    block,
    car,
    car_indexed,
    car_v2,
    cid_of,
    pb,
    pb_link,
)
from .program import ProgramTest
from .random_unixfs import Source
from .rows import CHECK_FAILED, DONE, ERROR, Row
from .test_salvage import MOST_MEMORY, changed, little_memory
from .unixfs import (
    DEFAULT,
    FILE,
    RAW_DATA,
    RAW_LEAVES,
    Node,
    Profile,
    blocks_of,
    car_of,
    data_message,
    file_of,
    folder,
    leaf,
    node,
    number_field,
    parent,
    raw_leaf,
    shard,
    symlink,
)
from .unixfs_reader import Fault, Reader

SEED, COUNT = 0xCA7, 60
CHUNK = 4
CONTENT = bytes(range(256)) * 3
# A file of two levels of nodes, and one whose blocks repeat.
TALL = file_of(CONTENT[:33], Profile(1, True, CHUNK, 3))
SAME = file_of(bytes(40), Profile(0, False, CHUNK, 3))
# A folder whose file is at the path `in/many/7`.
NAMES = [b"%d" % number for number in range(40)]
MANY = shard({name: file_of(b"file " + name) for name in NAMES}, 1)
INSIDE = folder({b"many": MANY, b"tall": TALL, 'é "ü\\'.encode(): file_of(b"odd name")})
ROOT = folder({b"in": INSIDE, b"link": symlink(b"in/tall"), b"file": SAME}, 1)
# The most levels of a file, and how often a block repeats in a huge file.
LEVELS, DOUBLINGS = 64, 50

# What a gateway is asked for.
GATEWAY_PATHS = [("/in/tall", CONTENT[:33]), ("/in/many/7", b"file 7"), ("/file", bytes(40))]


def sizes_of(width):
    """Returns sizes at the boundaries of chunks, of nodes above them, and of the nodes above these."""
    counts = [0, 1, 2, width] + [width * width] * (width < 10)
    return sorted({max(0, CHUNK * count + more) for count in counts for more in (-1, 0, 1)})


def outcome(blocks, root):
    """Returns the bytes of a file as far as they can be read, and the fault after them, or None."""
    content = b""
    try:
        for piece in Reader(blocks).pieces(root):
            content += piece
    except Fault as fault:
        return content, fault
    return content, None


class CatTest(ProgramTest):
    def write(self, data):
        (self.folder / "some.car").write_bytes(data)

    def check_content(self, arguments, content, **options):
        """Fails unless the program writes these bytes. The arguments follow the word `cat`."""
        self.check(Row(["cat", *map(str, arguments)], content), **options)

    def check_stops(self, arguments, cid, content, **options):
        """
        Fails unless the program reports an error at a CID, after it wrote a beginning of this
        content. Returns what it wrote.
        """
        run = self.run_program(["cat", *map(str, arguments)], **options)
        self.assertEqual(run.status, CHECK_FAILED, run.err)
        self.assertIn(str(cid), run.err.decode())
        self.assertTrue(content.startswith(run.out), run.out)
        return run.out


class ContentTest(CatTest):
    def test_sizes(self):
        for version, raw_leaves, width in itertools.product((0, 1), (False, True), (2, 3, 174)):
            profile = Profile(version, raw_leaves, CHUNK, width)
            for size in sizes_of(width):
                content = CONTENT[:size]
                self.write(car_of(file_of(content, profile)))
                with self.subTest(profile=profile, size=size):
                    self.check_content(["some.car"], content)

    def test_random_files(self):
        source = Source(SEED)
        for number in range(COUNT):
            made = source.file()
            repeats = number % 2 == 0
            self.write(car_of(made.node, repeats))
            with self.subTest(number=number, root=str(made.node.cid)):
                self.check_content(["some.car"], made.content)
                self.check_content(["some.car", made.node.cid], made.content)

    def test_default_chunks(self):
        content = random.Random(SEED).randbytes(2 * DEFAULT.chunk + 1)
        for profile in DEFAULT, RAW_LEAVES:
            for size in DEFAULT.chunk - 1, DEFAULT.chunk, DEFAULT.chunk + 1, len(content):
                self.write(car_of(file_of(content[:size], profile)))
                with self.subTest(profile=profile, size=size):
                    self.check_content(["some.car"], content[:size])

    def test_other_layouts(self):
        content = b"abcdef"
        leaves = [leaf(0, it, RAW_DATA) for it in (b"ab", b"cd", b"ef")]
        whole = data_message(FILE, None, 6, [2, 2, 2])
        # Varints of Protocol Buffers may be longer than necessary.
        longer = b"\x08\x82\x00" + number_field(3, 6) + b"\x20\x82\x00" + number_field(4, 2) * 2
        inside = [Block(cid_of(RAW, it, IDENTITY), it) for it in (b"ab", b"cd", b"ef")]
        inside = [Node(it, 2, 2, ()) for it in inside]
        links = [pb_link(it.cid, b"", it.total) for it in leaves]
        first = block(DAG_PB, pb(links, whole, data_first=True))
        no_names = block(DAG_PB, pb([pb_link(it.cid) for it in leaves], whole))
        for name, root in [
            ("leaves of the type Raw", parent(0, leaves)),
            ("a root of the type Raw", node(0, data_message(RAW_DATA, content, 6))),
            ("bytes before those of the links", file_node(leaves[1:], [2, 2], b"ab", 6)),
            ("no filesize", file_node(leaves, [2, 2, 2])),
            (
                "leaves that are not equally deep",
                file_node([parent(0, leaves[:2]), leaves[2]], [4, 2]),
            ),
            ("an empty leaf", file_node([raw_leaf(b""), *leaves], [0, 2, 2, 2], filesize=6)),
            ("data before the links", Node(first, 6, 0, [(b"", it) for it in leaves])),
            ("links without names and sizes", Node(no_names, 6, 0, [(b"", it) for it in leaves])),
            ("longer varints", node(1, longer, [(b"", it) for it in leaves])),
        ]:
            self.write(car_of(root))
            with self.subTest(name):
                self.assertEqual(outcome(dict(blocks_of(root)), root.cid), (content, None))
                self.check_content(["some.car"], content)
        root = file_node(inside, [2, 2, 2], filesize=6)
        self.write(car([root.cid], [root.block]))
        self.check_content(["some.car"], content)

    def test_a_file_that_is_in_its_cid(self):
        root = cid_of(RAW, b"inside", IDENTITY)
        self.write(car([root], []))
        self.check_content(["some.car"], b"inside")

    def test_modes_and_times(self):
        for profile in Profile(0, False, CHUNK, 3), Profile(1, True, CHUNK, 3):
            for size in 0, CHUNK, 10 * CHUNK:
                root = file_of(CONTENT[:size], profile, mode=0o644, mtime=(-1, 5))
                self.write(car_of(root))
                with self.subTest(profile=profile, size=size):
                    self.check_content(["some.car"], CONTENT[:size])

    def test_a_deep_file(self):
        lowest = root = parent(1, [raw_leaf(b"deep")])
        for _ in range(LEVELS - 1):
            root = parent(1, [root])
        self.write(car_of(root))
        self.check_content(["some.car"], b"deep")
        self.write(car_of(parent(1, [root])))
        self.check_stops(["some.car"], lowest.cid, b"")

    def test_any_order(self):
        shuffled, source = blocks_of(TALL) + blocks_of(SAME), random.Random(SEED)
        for _ in range(5):
            source.shuffle(shuffled)
            self.write(car([TALL.cid], shuffled))
            self.check_content(["some.car"], CONTENT[:33])
            self.check_content(["some.car", SAME.cid], bytes(40))

    def test_paths(self):
        self.write(car_of(ROOT))
        odd = 'é "ü\\'
        for path, content in [
            ("/file", bytes(40)),
            ("/in/tall", CONTENT[:33]),
            (f"/in/{odd}", b"odd name"),
            *((f"/in/many/{name.decode()}", b"file " + name) for name in NAMES),
        ]:
            with self.subTest(path=path):
                self.check_content(["some.car", path], content)
                self.check_content(["some.car", f"{ROOT.cid}{path}"], content)
        self.check_content(["some.car", f"{INSIDE.cid}/tall"], CONTENT[:33])
        self.check_content(["some.car", f"{MANY.cid}/7"], b"file 7")

    def test_version_2(self):
        whole = car_indexed([TALL.cid], blocks_of(TALL))
        for data in whole, car_v2(car_of(TALL)), car_v2(car_of(TALL, repeats=True)):
            self.write(data)
            self.check_content(["some.car"], CONTENT[:33])
            self.check_content(["some.car", TALL.cid], CONTENT[:33])

    def test_a_path_needs_only_its_blocks(self):
        needed = [ROOT, INSIDE, TALL]
        self.write(car([ROOT.cid], [*(it.block for it in needed), *blocks_of(TALL)[1:]]))
        self.check_content(["some.car", "/in/tall"], CONTENT[:33])
        reader = Reader(dict(blocks_of(ROOT)))
        *shards, target = reader.steps(MANY.cid, b"7")
        cids = [ROOT.cid, INSIDE.cid, *shards, target]
        self.write(car([ROOT.cid], [Block(it, reader.block(it)) for it in cids]))
        self.check_content(["some.car", "/in/many/7"], b"file 7")


class StandardInputTest(CatTest):
    def test_the_order_of_a_walk(self):
        for root, content in (TALL, CONTENT[:33]), (SAME, bytes(40)), (file_of(b""), b""):
            for repeats in False, True:
                data = car_of(root, repeats)
                self.check_content(["-"], content, input=data)
                self.check_content(["-", root.cid], content, input=data)
        for repeats in False, True:
            data = car_of(ROOT, repeats)
            self.check_content(["-", "/in/tall"], CONTENT[:33], input=data)
            self.check_content(["-", "/in/many/7"], b"file 7", input=data)

    def test_other_orders(self):
        self.check_content(["-"], CONTENT[:33], input=car([TALL.cid], blocks_of(TALL)[::-1]))

    def test_a_cut_car(self):
        data = car_of(TALL)
        for end in range(0, len(data), 7):
            with self.subTest(end=end):
                run = self.run_program(["cat", "-", str(TALL.cid)], input=data[:end])
                self.assertEqual(run.status, CHECK_FAILED)
                self.assertTrue(CONTENT[:33].startswith(run.out))


class GatewayTest(CatTest):
    """Tests of the CARs that a gateway sends, on standard input."""

    def body(self, path, options, lie):
        target = f"/ipfs/{ROOT.cid}{path}?format=car{options}"
        return b"".join(Answer(dict(blocks_of(ROOT)), target, "").body(lie))

    def read(self, body, path):
        """Returns the bytes of the file at a path, as the reader finds them, or None."""
        blocks = {}
        for _, cid, data in damaged.read(body)[0]:
            blocks.setdefault(cid, data)
        try:
            reader = Reader(blocks)
            return reader.file(reader.at(ROOT.cid, [it.encode() for it in path.split("/")[1:]]))
        except Fault:
            return None

    def test_an_honest_gateway(self):
        for path, content in GATEWAY_PATHS:
            for options in "", "&dups=y", "&dag-scope=entity", "&entity-bytes=0:*":
                with self.subTest(path=path, options=options):
                    body = self.body(path, options, None)
                    self.check_content(["-", f"{ROOT.cid}{path}"], content, input=body)

    def test_a_lying_gateway(self):
        """No lie makes the program write other bytes than those of the file."""
        for lie in set(Lie) - {Lie.ENDLESS, Lie.REDIRECT}:
            for path, content in GATEWAY_PATHS:
                for options in "", "&dups=y":
                    body = self.body(path, options, lie)
                    run = self.run_program(["cat", "-", f"{ROOT.cid}{path}"], input=body)
                    with self.subTest(lie=lie, path=path, options=options):
                        self.assertTrue(content.startswith(run.out), run.out)
                        self.assertIn(run.status, (DONE, CHECK_FAILED))
                        if run.status == DONE:
                            self.assertEqual((run.out, self.read(body, path)), (content, content))


class FaultTest(CatTest):
    def test_missing_blocks(self):
        for root in TALL, SAME:
            content, blocks = outcome(dict(blocks_of(root)), root.cid)[0], blocks_of(root)
            for it in blocks:
                less = [other for other in blocks if other != it]
                self.write(car([root.cid], less))
                before, fault = outcome(dict(less), root.cid)
                with self.subTest(root=str(root.cid), missing=str(it.cid)):
                    self.assertEqual(fault.cid, it.cid)
                    # Everything before the missing block is written.
                    out = self.check_stops(["some.car", root.cid], it.cid, content)
                    self.assertEqual(out, before)

    def test_changed_blocks(self):
        for root in TALL, SAME:
            content, blocks = outcome(dict(blocks_of(root)), root.cid)[0], blocks_of(root)
            for number, it in enumerate(blocks):
                for data in changed(it.data, len(it.data) - 1), it.data + b"x", it.data[:-1], b"":
                    other = [*blocks[:number], Block(it.cid, data), *blocks[number + 1 :]]
                    self.write(car([root.cid], other))
                    with self.subTest(root=str(root.cid), changed=str(it.cid), data=data):
                        self.check_stops(["some.car"], it.cid, content)
                        self.check_stops(["-"], it.cid, content, input=car([root.cid], other))

    def test_swapped_blocks(self):
        """The blocks of two leaves are swapped, which leaves all sizes right."""
        *others, one, two = blocks_of(file_of(CONTENT[:8], Profile(1, True, CHUNK, 3)))
        swapped = [*others, Block(one.cid, two.data), Block(two.cid, one.data)]
        self.write(car([others[0].cid], swapped))
        self.assertEqual(self.check_stops(["some.car"], one.cid, CONTENT[:8]), b"")

    def test_nodes_that_are_not_a_file(self):
        for kind, bad in BAD_FILES:
            below = file_node([B, bad, A], [3, bad.size or 2, 2])
            for root, before in (bad, b""), (below, b"bbb"):
                self.write(car_of(root))
                with self.subTest(kind=kind, data=root.block.data.hex()):
                    out = self.check_stops(["some.car"], bad.cid, before)
                    self.assertEqual(out, before)

    def test_sizes_that_lie(self):
        for parts, sizes, at, before in [
            ([A, B], [3, 3], A.cid, b""),
            ([A, B], [2, 2], B.cid, b"aa"),
            ([A, B], [0, 3], A.cid, b""),
            ([A, SHORT, B], [2, 3, 3], A.cid, b"aa"),
            ([A, SHORT, B], [2, 2, 3], SHORT.cid, b"aa"),
        ]:
            root = file_node(parts, sizes, filesize=sum(sizes))
            self.write(car_of(root))
            with self.subTest(sizes=sizes):
                self.assertEqual(self.check_stops(["some.car"], at, b"aa"), before)

    def test_blocks_of_other_codecs(self):
        below = file_node([A, Node(LEAF, 6, 6, ())], [2, len(LEAF.data)])
        for root, before in (Node(LEAF, None, 0, ()), b""), (below, b"aa"):
            self.write(car_of(root))
            self.assertEqual(self.check_stops(["some.car"], LEAF.cid, before), before)

    def test_paths(self):
        self.write(car_of(ROOT))
        link = symlink(b"in/tall").cid
        for path, cid in [
            ("", ROOT.cid),
            ("/in", INSIDE.cid),
            ("/in/many", MANY.cid),
            ("/link", link),
            ("/link/x", link),
            ("/no", ROOT.cid),
            ("/in/no", INSIDE.cid),
            ("/in/..", INSIDE.cid),
            ("/file/x", SAME.cid),
        ]:
            with self.subTest(path=path):
                self.check_stops(["some.car", f"{ROOT.cid}{path}"], cid, b"")
        # A name that no entry of a sharded folder has.
        run = self.run_program("cat some.car /in/many/no")
        self.assertEqual((run.out, run.status), (b"", CHECK_FAILED))

    def test_missing_blocks_of_a_path(self):
        blocks = blocks_of(ROOT)
        reader = Reader(dict(blocks))
        *shards, target = reader.steps(MANY.cid, b"7")
        for cid in [ROOT.cid, INSIDE.cid, *shards, target]:
            self.write(car([ROOT.cid], [it for it in blocks if it.cid != cid]))
            with self.subTest(missing=str(cid)):
                self.check_stops(["some.car", "/in/many/7"], cid, b"")

    def test_roots(self):
        self.write(car([], blocks_of(TALL)))
        run = self.run_program("cat some.car")
        self.assertEqual((run.out, run.status), (b"", CHECK_FAILED))
        self.check_content(["some.car", TALL.cid], CONTENT[:33])
        self.write(car([TALL.cid, SAME.cid], blocks_of(TALL)))
        self.check_content(["some.car"], CONTENT[:33])
        self.check_stops(["some.car", HELLO.cid], HELLO.cid, b"")

    def test_files_that_are_not_read(self):
        for file, status in ("no-such", ERROR), ("plain", CHECK_FAILED), ("dir", ERROR):
            (self.folder / "dir").mkdir(exist_ok=True)
            run = self.run_program(["cat", file])
            with self.subTest(file=file):
                self.assertEqual((run.out, run.status), (b"", status))
        self.write(car_of(TALL))
        for word in "no-cid", f"{TALL.cid}x":
            run = self.run_program(["cat", "some.car", word])
            with self.subTest(word=word):
                self.assertEqual(run.out, b"")
                self.assertIn(run.status, (CHECK_FAILED, ERROR))

    def test_a_full_device(self):
        self.write(car_of(TALL))
        with open("/dev/full", "wb") as full:
            self.assertEqual(self.run_program("cat some.car", stdout=full).status, ERROR)


class ChangedByteTest(CatTest):
    def check_changed(self, data, arguments, root, content):
        """Fails unless the program and the reader agree on a CAR, of which a byte may be changed."""
        found, error = damaged.read(data)
        blocks = {}
        for _, cid, it in found:
            blocks.setdefault(cid, it)
        self.write(data)
        run = self.run_program(["cat", "some.car", *arguments])
        self.assertTrue(content.startswith(run.out), run.out)
        fault = Fault("Root", b"")
        if root is not None:
            expected, fault = outcome(blocks, root)
        if fault:
            self.assertEqual(run.status, CHECK_FAILED, run.err)
            if not error:
                self.assertIn(str(fault.cid), run.err.decode())
        else:
            self.assertEqual((run.out, run.err, run.status), (expected, b"", DONE))

    def check_each_byte(self, root, content):
        whole = car_of(root)
        for at in range(len(whole)):
            data = changed(whole, at)
            with self.subTest(root=str(root.cid), changed=at):
                self.check_changed(data, [], damaged.root_of(data), content)
                found = root.cid if damaged.root_of(data) else None
                self.check_changed(data, [str(root.cid)], found, content)

    def test_a_file_of_raw_leaves(self):
        self.check_each_byte(file_of(CONTENT[:9], Profile(1, True, CHUNK, 2)), CONTENT[:9])

    def test_a_file_of_nodes(self):
        self.check_each_byte(file_of(CONTENT[:9], Profile(0, False, CHUNK, 2)), CONTENT[:9])

    def test_one_block(self):
        for profile in Profile(0, False, CHUNK, 2), Profile(1, True, CHUNK, 2):
            self.check_each_byte(file_of(CONTENT[:3], profile), CONTENT[:3])


class LimitTest(CatTest):
    def check_limit(self, limit, content):
        """Fails unless the program stops at a limit below the size of a file."""
        run = self.run_program(["cat", "--max-size", str(limit), "some.car"])
        self.assertIn(run.status, (CHECK_FAILED, ERROR))
        self.assertLessEqual(len(run.out), limit)
        self.assertTrue(content.startswith(run.out))

    def test_limits(self):
        self.write(car_of(TALL))
        for limit in 33, 34, "1K", "1G":
            self.check_content(["--max-size", limit, "some.car"], CONTENT[:33])
        for limit in 1, 32:
            self.check_limit(limit, CONTENT[:33])

    def test_a_huge_file(self):
        """A file of 2^60 bytes, in few blocks."""
        root = raw_leaf(bytes(1024))
        for _ in range(DOUBLINGS):
            root = parent(1, [root, root])
        # A walk with repeats would never end.
        self.assertEqual(len(blocks_of(root)), DOUBLINGS + 1)
        self.write(car_of(root))
        self.check_limit(100_000, bytes(100_000))


class RangeTest(CatTest):
    """Tests of `--offset` and `--length`."""

    def check_range(self, content, offset, length, **options):
        words = [] if offset is None else ["--offset", offset]
        words += [] if length is None else ["--length", length]
        start = offset or 0
        expected = content[start:] if length is None else content[start : start + length]
        self.check_content([*words, "some.car"], expected, **options)

    def test_each_range(self):
        content = CONTENT[:17]
        ends = [None, 0, 1, 3, 4, 5, 8, 12, 13, 16, 17, 18, 2**63, 2**64 - 1]
        for raw_leaves, width in itertools.product((False, True), (2, 174)):
            self.write(car_of(file_of(content, Profile(1, raw_leaves, CHUNK, width))))
            for offset, length in itertools.product(ends, ends):
                with self.subTest(raw_leaves=raw_leaves, width=width, at=(offset, length)):
                    self.check_range(content, offset, length)

    def test_random_ranges(self):
        source, numbers = Source(SEED), random.Random(SEED)
        for number in range(COUNT):
            made = source.file()
            self.write(car_of(made.node))
            offset, length = (numbers.randrange(len(made.content) + 2) for _ in range(2))
            with self.subTest(number=number, at=(offset, length)):
                self.check_range(made.content, offset, length)

    def test_only_the_blocks_of_a_range(self):
        """Blocks before a range and after it can be missing, or be wrong."""
        root = file_of(CONTENT[:40], Profile(1, True, CHUNK, 3))
        blocks = blocks_of(root)
        leaves = [it for it in blocks if it.cid.startswith(bytes((1, RAW)))]
        self.assertEqual(len(leaves), 10)
        for offset, length in [(0, 4), (4, 4), (5, 2), (7, 2), (36, 100), (12, 12), (39, None)]:
            end = 40 if length is None else min(40, offset + length)
            kept = leaves[offset // CHUNK : (end - 1) // CHUNK + 1]
            nodes = [it for it in blocks if it not in leaves]
            wrong = [Block(it.cid, b"wrong") for it in leaves if it not in kept]
            for others in [], wrong:
                self.write(car([root.cid], [*nodes, *kept, *others]))
                with self.subTest(at=(offset, length), wrong=len(others)):
                    self.check_range(CONTENT[:40], offset, length)
            for missing in kept:
                self.write(car([root.cid], [it for it in blocks if it != missing]))
                words = ["--offset", offset, "--length", length or 1, "some.car"]
                self.check_stops(words, missing.cid, CONTENT[offset:end])

    def test_sizes_of_a_range(self):
        """A size is the one of the range, and not of the file."""
        self.write(car_of(TALL))
        range_words = ["--offset", "2", "--length", "8"]
        self.check_content([*range_words, "--max-size", "8", "some.car"], CONTENT[2:10])
        run = self.run_program(["cat", *range_words, "--max-size", "7", "some.car"])
        self.assertEqual((run.out, run.status), (b"", CHECK_FAILED))
        for word in "x", "-1", "", str(2**64):
            run = self.run_program(["cat", f"--offset={word}", "some.car"])
            self.assertEqual((run.out, run.status), (b"", ERROR))


class HoldTest(CatTest):
    def run_on(self, *arguments):
        with open(self.folder / "some.car", "rb") as given:
            return self.run_program(["cat", *arguments, "-"], stdin=given)

    def test_blocks_that_come_too_early(self):
        self.write(car([TALL.cid], blocks_of(TALL)[::-1]))
        for hold in "32M", "8K":
            with self.subTest(hold=hold):
                run = self.run_on("--hold", hold)
                self.assertEqual((run.out, run.err, run.status), (CONTENT[:33], b"", DONE))
        run = self.run_on("--hold", "1")
        self.assertEqual(run.status, CHECK_FAILED)
        self.assertTrue(CONTENT.startswith(run.out))
        self.assertIn(b"--hold", run.err)

    def test_a_block_that_comes_once(self):
        """A block is wanted again after others, which leave no room for it."""
        content = [bytes([number]) * 3000 for number in (0, 1, 2, 3, 0)]
        root = parent(1, [raw_leaf(it) for it in content])
        self.write(car_of(root))
        run = self.run_on("--hold", "100K")
        self.assertEqual((run.out, run.status), (b"".join(content), DONE))
        run = self.run_on("--hold", "7K")
        self.assertEqual((run.out, run.status), (b"".join(content[:4]), CHECK_FAILED))
        self.assertIn(str(raw_leaf(content[0]).cid).encode(), run.err)

    def test_no_size(self):
        for size in "0", "x", "-1":
            self.assertEqual(self.run_on("--hold", size).status, ERROR)


class MemoryTest(CatTest):
    def test_a_large_file(self):
        chunks = [b"%d" % number * 50_000 for number in range(10_000, 10_400)]
        root = parent(1, [raw_leaf(it) for it in chunks])
        self.assertGreater(root.size, MOST_MEMORY)
        content = b"".join(chunks)
        self.write(car_of(root))
        for arguments in ["some.car"], ["-"]:
            with open(self.folder / "some.car", "rb") as given:
                # A failure would print all of the content.
                run = self.run_program(["cat", *arguments], stdin=given, preexec_fn=little_memory)
            with self.subTest(arguments=arguments):
                self.assertEqual((run.err, run.status, len(run.out)), (b"", DONE, root.size))
                self.assertTrue(run.out == content)
