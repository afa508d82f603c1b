"""Tests of `ipld unpack`, with folders that `unixfs.py` writes, and with hostile ones."""

import collections
import fcntl
import itertools
import os
import pathlib
import random
import resource
import shutil
import signal
import stat
import subprocess
import tempfile
import time

from ..gateway import Answer, Lie
from . import damaged
from .bad_unixfs import BAD_FILES, BAD_FOLDERS, A, B, file_node
from .blocks import CUT_CHAIN, FAR, HELLO, LEAF, OTHER
from .folders import small_files
from .formats import (
    DAG_PB,
    IDENTITY,
    RAW,
    Block,
    car,
    car_indexed,
    cid_of,
    framed,
)
from .program import SECONDS_FOR_A_RUN, ProgramTest
from .random_unixfs import File, Folder, Source
from .rows import CHECK_FAILED, DONE, ERROR
from .test_salvage import changed, little_memory
from .unixfs import (
    DIRECTORY,
    METADATA,
    RAW_LEAVES,
    SHARD,
    Node,
    Profile,
    blocks_of,
    car_of,
    data_message,
    file_of,
    folder,
    node,
    parent,
    raw_leaf,
    shard,
    symlink,
)
from .unixfs_reader import Fault, Reader, read_node

# How many random folders are unpacked, and how many hostile ones.
SEED, COUNT, HOSTILE_COUNT = 0x0DD, 60, 200
# What each entry counts for beside its bytes, and the longest target of a link.
ENTRY_SIZE, MAX_TARGET = 4096, 4095
# The time of the files that are there before, in nanoseconds.
BEFORE = 1_234_567_890_123_456_789
MANY, DOUBLINGS, LEVELS, TOO_DEEP = 3000, 30, 200, 3000
# The user without rights, and how many links the system follows in a path.
NOBODY, MOST_LINKS = 65534, 40

# A folder with an entry of each kind.
INSIDE = {
    b"empty": file_of(b""),
    b"folder": folder({b"x": file_of(b"x"), b"up": symlink(b"../raw")}),
    b"link": symlink(b"folder/x"),
    b"many": shard({b"%d" % number: file_of(b"%d" % number) for number in range(40)}, 1),
    b"none": folder({}),
    b"raw": file_of(b"raw", RAW_LEAVES),
    b"tall": file_of(bytes(range(40)), Profile(1, True, 4, 3)),
}
ROOT = folder({b"in": folder(INSIDE, 1), b"file": file_of(b"file"), "é \"ü'\\".encode(): A}, 1)
# A smaller one.
SMALL = folder({b"a": file_of(b"text"), b"b": folder({b"c": A}, 1), b"d": symlink(b"b/c")}, 1)
SMALL_TREE = {b"a": b"text", b"b": {b"c": b"aa"}}

# Names that no entry has.
BAD_NAMES = [
    b".",
    b"..",
    b"/",
    b"/etc/passwd",
    b"../outside",
    b"../../outside/file",
    b"a/b",
    b"a/../../x",
    b"./x",
    b"x/",
    b"\0",
    b"a\0",
    b"..\0",
    b"\xff",
    b"\xc0\xae\xc0\xae",
    b"\xed\xa0\x80",
]
GOOD_NAMES = [
    b"a",
    b"b",
    b"up",
    b"...",
    b"..a",
    b" ",
    b"-rf",
    b"~",
    b"$HOME",
    b"*",
    b"a\\b",
    b"..\\x",
    b"new\nline",
    b"\x1b[2J",
    "e\u0301".encode(),
    "é".encode(),
    b".dir.ipld-1",
    b"x" * 255,
]
# Targets of links, and at which level of folders they lead out: at those below it.
TARGETS = [
    (b"x", 0),
    (b"./x", 0),
    (b".", 0),
    (b"./", 0),
    (b"a/b", 0),
    (b"a//b/.", 0),
    (b"...", 0),
    (b"..a/b..", 0),
    (b"..\\x", 0),
    (b"x" * 1000, 0),
    ("é\n\x1b".encode(), 0),
    (b"..", 1),
    (b"../", 1),
    (b"../x", 1),
    (b"./../x", 1),
    (b".//../x", 1),
    (b"..//x/.", 1),
    (b"../..", 2),
    (b".././../a", 2),
    (b"../../../x", 3),
]
# Targets that may lead out at any level.
OUTSIDE = [
    b"/",
    b"/etc/passwd",
    b"//x",
    b"/./",
    b"a/..",
    b"a/../..",
    b"up/..",
    b"./a/../b",
    b"../a/..",
    b"x/../x",
    b"../" * 100 + b"etc/passwd",
]
# Targets that no link has.
NO_TARGETS = [None, b"", b"\0", b"a\0b", b"\xff", b"a/\xed\xa0\x80", b"x" * (MAX_TARGET + 1)]

# What a gateway is asked for.
GATEWAY_PATHS = ["", "/in", "/in/many", "/in/none"]


class Target(collections.namedtuple("Target", "target")):
    """A symbolic link, by its target."""

    __slots__ = ()


class LeadsOut(Exception):
    """The path of a link that may lead out of the folder, or that has a target that no link has."""


def tree(path):
    """
    Returns what is in a folder, by name: the bytes of a file, the target of a link, and what is in a
    folder.
    """
    found = {}
    with os.scandir(os.fsencode(path)) as entries:
        for it in entries:
            if it.is_symlink():
                found[it.name] = Target(os.readlink(it.path))
            elif it.is_dir():
                found[it.name] = tree(it.path)
            else:
                found[it.name] = pathlib.Path(os.fsdecode(it.path)).read_bytes()
    return found


def attributes(path):
    """
    Returns the permissions and the time of a folder and of all that is in it except links, by path.
    Opens each of them to its owner.
    """
    found, pending = {}, [b""]
    while pending:
        inside = pending.pop()
        at = os.fsencode(path) + inside
        info = os.lstat(at)
        if not stat.S_ISLNK(info.st_mode):
            found[inside] = (info.st_mode & 0o7777, info.st_mtime_ns)
            os.chmod(at, 0o700)
        if stat.S_ISDIR(info.st_mode):
            pending += [inside + b"/" + it for it in os.listdir(at)]
    return found


def snapshot(top, above, without=()):
    """
    Returns what is in a folder, by path: the kind and the permissions of each entry, its time and
    its content. Paths are left out, with all below them, and so is the time of the folder above.
    """
    found, without = {}, set(map(str, without))
    for path, folders, files in os.walk(top):
        for name in folders + files:
            at = os.path.join(path, name)
            info, content = os.lstat(at), None
            if stat.S_ISLNK(info.st_mode):
                content = os.readlink(at)
            elif stat.S_ISREG(info.st_mode):
                content = pathlib.Path(at).read_bytes()
            if at not in without:
                found[at] = (info.st_mode, None if at == above else info.st_mtime_ns, content)
        folders[:] = [it for it in folders if os.path.join(path, it) not in without]
    return found


def resolved(path):
    """
    Returns where a path leads, whether something is there or not, or None if its links go in a
    circle.
    """
    at, rest, links = "/", path.split("/")[::-1], 0
    while rest:
        name = rest.pop()
        if name == "..":
            at = os.path.dirname(at)
        elif name not in ("", "."):
            to = os.path.join(at, name)
            if os.path.islink(to):
                links += 1
                if links > MOST_LINKS:
                    return None
                at = "/" if os.readlink(to).startswith("/") else at
                rest += os.readlink(to).split("/")[::-1]
            else:
                at = to
    return at


def leads_out(target, level):
    """
    Returns whether a link may lead out of the whole folder. `level` is how many levels below it the
    folder of the link is.
    """
    names = [it for it in target.split(b"/") if it not in (b"", b".")]
    ups = len(list(itertools.takewhile(lambda it: it == b"..", names)))
    return target.startswith(b"/") or ups > level or b".." in names[ups:]


def is_no_target(target):
    try:
        target.decode()
    except UnicodeDecodeError:
        return True
    return not target or b"\0" in target or len(target) > MAX_TARGET


class Expected:
    """What has to become of folders of which a reader has the blocks."""

    def __init__(self, blocks):
        self.reader = Reader(blocks)

    def entries(self, cid):
        """Yields the entries of a folder: those of a shard before those of the shards below it."""
        if self.reader.node(cid)[1].kind != SHARD:
            yield from self.reader.entries(cid)
            return
        for _, slots in self.reader.shards(cid):
            yield from (it for it in slots.values() if it[0])

    def tree(self, cid, path=b"dir", level=0):
        """Returns the tree of a folder. Raises `Fault` or `LeadsOut` for the first that is wrong."""
        found = {}
        for name, target in self.entries(cid):
            kind, to = self.reader.kind(target)
            at = path + b"/" + name
            if kind == "folder":
                found[name] = self.tree(target, at, level + 1)
            elif kind == "file":
                found[name] = self.reader.file(target)
            elif is_no_target(to) or leads_out(to, level):
                raise LeadsOut(at)
            else:
                found[name] = Target(to)
        return found


def expected_of(data):
    """Returns the tree of a CAR of version 1. Raises `Fault` or `LeadsOut`."""
    blocks = {}
    for _, cid, block in damaged.read(data)[0]:
        blocks.setdefault(cid, block)
    return Expected(blocks).tree(damaged.root_of(data))


def tree_of(made, links=lambda target, level: True, level=0):
    """Returns the tree of a folder of `random_unixfs.py`, with those links for which that is so."""
    found = {}
    for name, it in made.entries.items():
        if isinstance(it, Folder):
            found[name] = tree_of(it, links, level + 1)
        elif isinstance(it, File):
            found[name] = it.content
        elif links(it.target, level):
            found[name] = Target(it.target)
    return found


def count_of(entries):
    """Returns how many entries a tree has."""
    return sum(1 + (count_of(it) if isinstance(it, dict) else 0) for it in entries.values())


def plain(*links):
    """Returns a plain folder with these links, as they are."""
    return node(1, data_message(DIRECTORY), links)


def nested(root, *names):
    """Returns the folder that leads to a node by these names."""
    for name in reversed(names):
        root = plain((name, root))
    return root


def as_nobody():
    """Gives up the rights of root. It is called in the new process."""
    if os.geteuid() == 0:
        os.setgroups([])
        os.setgid(NOBODY)
        os.setuid(NOBODY)


class UnpackTest(ProgramTest):
    """A test in a folder `work`, with files in and around it that have to stay as they are."""

    def setUp(self):
        self.top = pathlib.Path(tempfile.mkdtemp(dir=self.folder))
        self.work, outside = self.top / "work", self.top / "outside"
        self.dir = self.work / "dir"
        for path in outside / "inner", self.work / "outside":
            path.mkdir(parents=True)
            (path / "file").write_bytes(b"stays")
        for path in outside / "file", self.top / "x", self.work / "x", self.work / "a":
            path.write_bytes(b"stays")
            path.chmod(0o640)
            os.utime(path, ns=(BEFORE, BEFORE))
        (self.work / ".other.ipld-1").mkdir()
        (self.work / "link").symlink_to("../outside")
        outside.chmod(0o750)

    def unpack(
        self, data, *arguments, directory="dir", stream=False, fresh=True, gone=(), **options
    ):
        """
        Unpacks a CAR, from standard input if `stream` is set. Fails unless all outside of the new
        folder stays as it was, except what has to be gone. After an error, so does all.
        """
        made = os.path.normpath(self.work / directory)
        above = os.path.realpath(os.path.dirname(made))
        made = os.path.join(above, os.path.basename(made))
        if fresh:
            shutil.rmtree(made, ignore_errors=True)
        file = "../some.car"
        if stream:
            file, options["input"] = "-", data
        else:
            (self.top / "some.car").write_bytes(data)
        before = snapshot(self.top, above)
        run = self.run_program(
            ["unpack", file, "-d", str(directory), *map(str, arguments)], self.work, **options
        )
        is_done = run.status == DONE
        self.assert_kept(before, above, [made] * is_done, gone)
        if is_done and "any" not in arguments:
            self.assert_inside(made)
        self.assertEqual(run.out, b"")
        controls = {it for it in run.err.decode() if ord(it) < 32 or 127 <= ord(it) < 160}
        self.assertLessEqual(controls, {"\n"})
        return run

    def assert_kept(self, before, above, made=(), gone=()):
        """
        Fails unless all in the folder of the test is as before, except the paths that were made and
        those that are gone. The time of the folder above these isn't compared.
        """
        after = snapshot(self.top, above, made)
        for path in map(str, (*made, *gone)):
            for it in [it for it in before if f"{it}/".startswith(f"{path}/")]:
                del before[it]
        differ = {it for it in {**before, **after} if before.get(it) != after.get(it)}
        self.assertEqual([(it, before.get(it), after.get(it)) for it in sorted(differ)], [])

    def assert_inside(self, path):
        """Fails if a link in a folder leads out of it."""
        whole = resolved(path)
        for inside, folders, files in os.walk(path):
            for name in folders + files:
                at = os.path.join(inside, name)
                if os.path.islink(at):
                    to = resolved(at)
                    self.assertTrue(to is None or f"{to}/".startswith(f"{whole}/"), f"{at}: {to}")

    def check_unpacked(self, data, entries, *arguments, directory="dir", err=b"", **options):
        """Fails unless a CAR becomes this tree."""
        run = self.unpack(data, *arguments, directory=directory, **options)
        self.assertEqual((run.err if err is not None else None, run.status), (err, DONE), run.err)
        self.assertEqual(tree(self.work / directory), entries)

    def check_stops(self, data, at, *arguments, status=CHECK_FAILED, **options):
        """Fails unless the program reports an error at a CID or at a path."""
        run = self.unpack(data, *arguments, **options)
        self.assertEqual(run.status, status, run.err)
        self.assertTrue(run.err.startswith(b"ipld: "), run.err)
        self.assertEqual(run.err.count(b"\n"), 1, run.err)
        self.assertIn(str(at), run.err.decode())
        return run

    def check_same(self, data, *arguments, **options):
        """Fails unless the program and the reader agree on a CAR. Returns whether it is unpacked."""
        try:
            entries = expected_of(data)
        except Fault as fault:
            self.check_stops(data, fault.cid, *arguments, **options)
        except LeadsOut:
            self.check_stops(data, "dir/", *arguments, **options)
        else:
            self.check_unpacked(data, entries, *arguments, **options)
            return True
        return False


class ContentTest(UnpackTest):
    def test_random_folders(self):
        source = Source(SEED)
        for number in range(COUNT):
            made = source.folder()
            data, stream = car_of(made.node, number % 2 == 0), number % 3 == 0
            whole, inside = tree_of(made), tree_of(made, lambda *it: not leads_out(*it))
            with self.subTest(number=number, root=str(made.node.cid)):
                self.check_unpacked(data, whole, "--symlinks", "any", stream=stream)
                run = self.unpack(data, "--symlinks", "skip", stream=stream)
                self.assertEqual((tree(self.dir), run.status), (inside, DONE))
                self.assertEqual(run.err.count(b"\n"), count_of(whole) - count_of(inside))
                if inside == whole:
                    self.check_unpacked(data, whole, stream=stream)
                else:
                    self.check_stops(data, "dir/", stream=stream)

    def test_each_kind(self):
        entries = Expected(dict(blocks_of(ROOT))).tree(ROOT.cid)
        self.assertEqual(count_of(entries), 52)
        for data in car_of(ROOT), car_of(ROOT, True), car_indexed([ROOT.cid], blocks_of(ROOT)):
            for stream in False, True:
                self.check_unpacked(data, entries, stream=stream)
                self.check_unpacked(data, entries, ROOT.cid, stream=stream)
        self.check_unpacked(car([ROOT.cid], blocks_of(ROOT)[::-1]), entries)
        self.check_unpacked(car([ROOT.cid], blocks_of(ROOT)[::-1]), entries, stream=True)

    def test_paths(self):
        data = car_of(ROOT)
        for path, entries in [
            ("/in/many", {b"%d" % number: b"%d" % number for number in range(40)}),
            ("/in/none", {}),
        ]:
            for word in path, f"{ROOT.cid}{path}":
                for stream in False, True:
                    with self.subTest(path=word, stream=stream):
                        self.check_unpacked(data, entries, word, stream=stream)
        # A link may lead to the whole folder, and the path makes that a smaller one.
        self.check_stops(data, "dir/up", "/in/folder")

    def test_empty_folders(self):
        for root in folder({}), folder({}, 1), shard({}, 1):
            self.check_unpacked(car_of(root), {})

    def test_odd_names(self):
        for write in folder, shard:
            root = write({name: A for name in GOOD_NAMES}, 1)
            with self.subTest(write=write.__name__):
                self.check_unpacked(car_of(root), {name: b"aa" for name in GOOD_NAMES})

    def test_a_long_name(self):
        """The system has no names of more than 255 bytes."""
        self.check_stops(car_of(plain((b"x" * 256, A))), "dir/xxx", status=ERROR)

    def test_many_files(self):
        """A folder of many files takes little memory, whatever its size."""
        contents = {b"%d" % number: b"%05d" % number * 2000 for number in range(MANY)}
        nodes = {name: file_of(it, RAW_LEAVES) for name, it in contents.items()}
        for write in folder, shard:
            data = car_of(write(nodes, 1))
            with self.subTest(write=write.__name__):
                self.check_unpacked(data, contents, preexec_fn=little_memory)
        data = car_of(folder(nodes, 1))
        self.check_unpacked(data, contents, "--hold", "1M", stream=True, preexec_fn=little_memory)

    def test_little_is_held(self):
        """A plain folder in the order of a walk needs no block again."""
        without = {name: it for name, it in INSIDE.items() if name != b"many"}
        root = folder({b"in": folder(without, 1), b"small": SMALL}, 1)
        data = car_of(root, repeats=True)
        self.check_unpacked(data, expected_of(data), "--hold", "1", stream=True)

    def test_options_of_cars(self):
        data = car_of(SMALL)
        for options in {}, {"stream": True}:
            self.check_unpacked(data + bytes(100), expected_of(data), "--zero-padding", **options)
            self.check_stops(data, "over the limit", "--limit", "40", **options)

    def test_files_that_are_not_read(self):
        for file, status in ("no-such", ERROR), ("plain", CHECK_FAILED), ("/", ERROR):
            run = self.run_program(["unpack", file, "-d", self.dir])
            with self.subTest(file=file):
                self.assertEqual((run.out, run.status), (b"", status))
                self.assertFalse(self.dir.exists())
        self.assertEqual(self.unpack(car([], [A.block])).status, CHECK_FAILED)
        for word in "no-cid", f"{SMALL.cid}x", f"{SMALL.cid}/no", "/a/x", "/d/x", "/b/..":
            with self.subTest(word=word):
                self.assertEqual(self.unpack(car_of(SMALL), word).status, CHECK_FAILED)


class GatewayTest(UnpackTest):
    """Tests of the CARs that a gateway sends, on standard input."""

    def test_lies(self):
        """No lie makes the program write another folder, and an honest gateway has it write one."""
        blocks = dict(blocks_of(ROOT))
        for lie in {None, *Lie} - {Lie.ENDLESS, Lie.REDIRECT}:
            for path, options in itertools.product(GATEWAY_PATHS, ("", "&dups=y")):
                target = f"/ipfs/{ROOT.cid}{path}?format=car{options}"
                body = b"".join(Answer(blocks, target, "").body(lie))
                reader = Expected(blocks)
                names = [it.encode() for it in path.split("/")[1:]]
                entries = reader.tree(reader.reader.at(ROOT.cid, names))
                with self.subTest(lie=lie, path=path, options=options):
                    run = self.unpack(body, f"{ROOT.cid}{path}", stream=True)
                    self.assertIn(run.status, (DONE, CHECK_FAILED) if lie else (DONE,), run.err)
                    if run.status == DONE:
                        self.assertEqual(tree(self.dir), entries)


class HostileTest(UnpackTest):
    def test_names(self):
        names = [*BAD_NAMES, os.fsencode(self.top / "outside" / "file")]
        for name, it, write in itertools.product(
            [*names, b""], [A, SMALL, symlink(b"x")], [folder, shard]
        ):
            bad = write({name: it}, 1)
            at = it.cid if write == shard and not name else bad.cid
            for root in bad, nested(bad, b"in"):
                with self.subTest(name=name, kind=it.block.data[:20], write=write.__name__):
                    self.check_stops(car_of(root), at)
        # Good entries before it.
        for name in names:
            bad = plain((b"!", A), (b'"', SMALL), (name, A))
            with self.subTest(name=name):
                self.check_stops(car_of(bad), bad.cid)
                self.check_stops(car_of(bad), bad.cid, stream=True)

    def test_repeated_names(self):
        """No link is followed by a later entry of its name."""
        out = os.fsencode(self.top / "outside")
        below = folder({b"file": file_of(b"written"), b"new": A}, 1)
        kinds = [symlink(out), symlink(b"../outside"), symlink(b"b"), below, A, file_of(b"written")]
        for one, other in itertools.product(kinds, kinds):
            for links in [
                [(b"a", one), (b"a", other)],
                [(b"a", one), (b"b", B), (b"a", other)],
                [(b"b", one), (b"a", other)],
            ]:
                bad = plain(*links)
                for arguments in [], ["--symlinks", "any"]:
                    with self.subTest(one=str(one.cid), other=str(other.cid), arguments=arguments):
                        self.check_stops(car_of(bad), bad.cid, *arguments)
            whole = shard({b"a": one}, 1)
            ((label, _),) = whole.links
            bad = node(1, read_node(whole.block.data)[1], [(label, one), (label, other)])
            self.check_stops(car_of(bad), bad.cid, "--symlinks", "any")

    def test_a_link_and_a_folder_of_its_name_elsewhere(self):
        """Links that lead to folders of other names, with entries that these have."""
        for target in b"..", b"../..", os.fsencode(self.top / "outside"), b"b":
            root = plain((b"a", symlink(target)), (b"b", plain((b"file", A), (b"x", B))))
            run = self.unpack(car_of(root), "--symlinks", "any")
            with self.subTest(target=target):
                self.assertEqual(run.status, DONE)
                self.assertEqual(
                    tree(self.dir), {b"a": Target(target), b"b": {b"file": b"aa", b"x": b"bbb"}}
                )

    def test_targets(self):
        folders = [b"one", b"two", b"three"]
        for target, level in itertools.product([*TARGETS, *((it, 9) for it in OUTSIDE)], range(4)):
            (target, least), names = target, folders[:level]
            data = car_of(nested(plain((b"link", symlink(target))), *names))
            path = "/".join(["dir", *map(bytes.decode, names), "link"])
            made, left_out = Target(target), {}
            for name in [b"link", *reversed(names)]:
                made = {name: made}
                left_out = {name: left_out} if name != b"link" else {}
            with self.subTest(target=target, level=level):
                self.assertEqual(leads_out(target, level), level < least)
                self.check_unpacked(data, made, "--symlinks", "any")
                if level >= least:
                    self.check_unpacked(data, made)
                    self.check_unpacked(data, made, "--symlinks", "inside")
                    self.check_unpacked(data, made, "--symlinks", "skip")
                else:
                    self.check_stops(data, path)
                    self.check_stops(data, path, "--symlinks", "inside")
                    run = self.unpack(data, "--symlinks", "skip")
                    self.assertEqual((run.status, run.err.count(b"\n")), (DONE, 1))
                    self.assertIn(path, run.err.decode())
                    self.assertEqual(tree(self.dir), left_out)

    def test_targets_that_no_link_has(self):
        for target, links in itertools.product(NO_TARGETS, ("inside", "skip", "any")):
            root = nested(plain((b"link", symlink(target))), b"in")
            with self.subTest(target=target, links=links):
                self.check_stops(car_of(root), "dir/in/link", "--symlinks", links)

    def test_links_through_links(self):
        """Each link leads to the inside by itself, so all of them do."""
        up, sub = symlink(b".."), symlink(b"sub")
        inside = plain((b"top", up), (b"x", symlink(b"top/sub/top/l")))
        root = plain((b"l", symlink(b"sub/top")), (b"m", symlink(b"l/l/sub")), (b"sub", inside))
        self.check_unpacked(car_of(root), expected_of(car_of(root)))
        around = plain((b"a", symlink(b"b")), (b"b", symlink(b"a")), (b"c", symlink(b"c/d")))
        self.check_unpacked(car_of(around), expected_of(car_of(around)))
        for root, path in [
            (plain((b"sub", plain((b"up", up), (b"x", symlink(b"up/.."))))), "dir/sub/x"),
            (plain((b"sub", plain((b"up", up))), (b"x", symlink(b"sub/up/.."))), "dir/x"),
            (plain((b"l", sub), (b"sub", plain((b"x", symlink(b"../l/../.."))))), "dir/sub/x"),
            (plain((b"l", sub), (b"sub", plain()), (b"x", symlink(b"l/../../x"))), "dir/x"),
        ]:
            with self.subTest(path=path, root=str(root.cid)):
                self.check_stops(car_of(root), path)

    def test_blocks(self):
        """Blocks that are missing, and blocks that are not those of their CIDs."""
        blocks = blocks_of(SMALL) + blocks_of(INSIDE[b"tall"]) + blocks_of(INSIDE[b"many"])[:4]
        root = plain((b"many", INSIDE[b"many"]), (b"small", SMALL), (b"tall", INSIDE[b"tall"]))
        whole = blocks_of(root)
        for it in [root.block, *blocks]:
            end = changed(it.data, len(it.data) - 1)
            for data in None, end, it.data + b"x", it.data[:-1], b"", HELLO.data:
                other = [Block(it.cid, data)] * (data is not None)
                at = whole.index(it)
                bad = car([root.cid], [*whole[:at], *other, *whole[at + 1 :]])
                with self.subTest(cid=str(it.cid), data=data):
                    self.check_stops(bad, it.cid)
                    self.check_stops(bad, it.cid, stream=True)

    def test_nodes(self):
        """Entries that are no files, folders or links, and parts of files that are none."""
        kinds = [it for kind, it in BAD_FILES if kind != "NotAFile"]
        kinds += [it for kind, it in BAD_FOLDERS if kind != "NotAFolder"]
        kinds += [Node(it, None, 0, ()) for it in (LEAF, OTHER, FAR, CUT_CHAIN)]
        kinds += [node(1, data_message(METADATA)), node(1, data_message(6))]
        for bad in kinds:
            for root in plain((b"a", A), (b"bad", bad)), nested(bad, b"in", b"in"):
                with self.subTest(data=bad.block.data.hex()):
                    self.check_stops(car_of(root), bad.cid)
        for bad in [it for _, it in BAD_FILES] + [Node(LEAF, None, 0, ())]:
            root = nested(file_node([B, bad, A], [3, bad.size or 2, 2]), b"file")
            with self.subTest(part=bad.block.data.hex()):
                self.check_stops(car_of(root), bad.cid)

    def test_what_is_no_folder(self):
        whole = plain((b"file", A), (b"link", symlink(b"x")), (b"tall", INSIDE[b"tall"]))
        for _, it in whole.links:
            self.check_stops(car_of(it), it.cid)
            self.check_stops(car_of(it), it.cid, "--symlinks", "any", "--preserve")
        for name, it in whole.links:
            for arguments in [name.decode()], [f"{name.decode()}/x"], [it.cid]:
                with self.subTest(arguments=arguments):
                    self.check_stops(car_of(whole), it.cid, *arguments)
        for it in LEAF, OTHER, FAR:
            self.check_stops(car([it.cid], [it]), it.cid)
        for kind, bad in BAD_FOLDERS:
            with self.subTest(kind=kind, data=bad.block.data.hex()):
                self.check_stops(car_of(bad), bad.cid)
                self.check_stops(car_of(bad), bad.cid, "--preserve", stream=True)

    def test_sizes_that_lie(self):
        for parts, sizes, at in [
            ([A, B], [3, 3], A),
            ([A, B], [2, 2], B),
            ([A, B], [0, 3], A),
            ([A, A], [2, 2**30], A),
        ]:
            root = nested(file_node(parts, sizes, filesize=sum(sizes)), b"file")
            with self.subTest(sizes=sizes):
                self.check_stops(car_of(root), at.cid)

    def test_blocks_that_are_in_their_cids(self):
        def inside(made, codec=DAG_PB):
            return made._replace(
                block=Block(cid_of(codec, made.block.data, IDENTITY), made.block.data)
            )

        raw, link = inside(A, RAW), inside(symlink(b"raw"))
        entries = {b"link": Target(b"raw"), b"raw": b"aa"}
        root = inside(plain((b"e", inside(plain()))))
        self.check_unpacked(car([root.cid], []), {b"e": {}})
        root = plain((b"link", link), (b"raw", raw))
        self.check_unpacked(car([root.cid], [root.block]), entries)
        self.check_unpacked(car([root.cid], [root.block]), entries, "--preserve", stream=True)
        root = plain((b"link", inside(symlink(b"/etc/passwd"))))
        self.check_stops(car([root.cid], [root.block]), "dir/link")
        root = plain((b"bad", inside(plain((b"..", raw)))))
        self.check_stops(car([root.cid], [root.block]), root.links[0][1].cid)

    def test_random_folders(self):
        choose, done = random.Random(SEED), 0
        for number in range(HOSTILE_COUNT):
            root = hostile(choose)
            blocks = blocks_of(root)
            if choose.random() < 0.3:
                at = choose.randrange(len(blocks))
                bad = blocks.pop(at)
                if choose.random() < 0.5 and bad.data:
                    blocks.insert(at, Block(bad.cid, changed(bad.data, len(bad.data) // 2)))
            with self.subTest(number=number, root=str(root.cid)):
                done += self.check_same(car([root.cid], blocks), stream=number % 2 == 0)
        self.assertTrue(HOSTILE_COUNT // 10 < done < HOSTILE_COUNT * 9 // 10, done)

    def test_each_byte(self):
        """The program and the reader agree on a CAR, whatever byte of it is changed."""
        whole = car_of(plain((b"a", file_of(b"text")), (b"b", shard({b"c": symlink(b"../a")}, 1))))
        entries = expected_of(whole)
        self.check_unpacked(whole, entries)
        for at in range(len(whole)):
            data = changed(whole, at)
            run = self.unpack(data, stream=at % 2 == 0)
            with self.subTest(changed=at):
                self.assertIn(run.status, (DONE, CHECK_FAILED))
                if run.status == DONE:
                    self.assertEqual(tree(self.dir), expected_of(data))


def hostile(choose, depth=3):
    """Returns a folder whose names, links and order may be wrong."""
    links = {}
    for _ in range(choose.choice([0, 1, 1, 2, 3])):
        kind, name = choose.randrange(8), choose.choice(GOOD_NAMES)
        if choose.random() < 0.05:
            name = choose.choice([*BAD_NAMES, b""])
        if kind < 3 and depth:
            links[name] = hostile(choose, depth - 1)
        elif kind == 3:
            links[name] = symlink(choose.choice([*OUTSIDE, *NO_TARGETS]))
        elif kind == 4:
            links[name] = symlink(choose.choice(TARGETS)[0])
        elif kind == 5 and choose.random() < 0.2:
            links[name] = choose.choice(BAD_FILES + BAD_FOLDERS)[1]
        else:
            links[name] = choose.choice([A, B, file_of(b"text"), INSIDE[b"tall"]])
    if choose.random() < 0.3:
        return shard(links, 1)
    entries = sorted(links.items())
    if choose.random() < 0.05:
        entries = entries[::-1] + entries[:1]
    return plain(*entries)


class BombTest(UnpackTest):
    """Tests of small CARs that stand for much."""

    LIMIT, SECONDS = 1 << 20, 20

    def limited(self):
        """
        Lets no file become longer than the limit, and no run take longer. It is called in the new
        process.
        """
        resource.setrlimit(resource.RLIMIT_FSIZE, (self.LIMIT, self.LIMIT))
        resource.setrlimit(resource.RLIMIT_CPU, (self.SECONDS, self.SECONDS))

    def check_bomb(self, root, at):
        for stream in False, True:
            self.check_stops(
                car_of(root),
                at,
                f"--max-size={self.LIMIT}",
                stream=stream,
                preexec_fn=self.limited,
            )

    def test_a_block_that_is_linked_often(self):
        root = raw_leaf(bytes(1000))
        for _ in range(DOUBLINGS):
            root = parent(1, [root, root])
        self.check_bomb(plain((b"a", A), (b"file", root)), root.cid)
        # The sizes in the nodes above it are those of another file.
        lies = file_node([root, root], [1, 1], filesize=2)
        self.check_bomb(plain((b"file", lies)), root.cid)

    def test_an_empty_block_that_is_linked_often(self):
        root = raw_leaf(b"")
        for _ in range(DOUBLINGS):
            root = parent(1, [root, root])
        data = car_of(plain((b"file", root)))
        run = self.unpack(data, f"--max-size={self.LIMIT}", preexec_fn=self.limited)
        self.assertEqual(run.status, CHECK_FAILED)

    def test_files_that_are_linked_often(self):
        big = file_of(bytes(self.LIMIT // 8), RAW_LEAVES)
        root = plain(*((b"%03d" % number, big) for number in range(256)))
        self.check_bomb(root, big.cid)

    def test_folders_that_are_linked_often(self):
        for it in plain(), symlink(b"x"), file_of(b""):
            root = it
            for _ in range(24):
                root = plain((b"a", root), (b"b", root))
            with self.subTest(root=str(root.cid)):
                self.check_bomb(root, "--max-size")

    def test_shards_that_are_linked_often(self):
        """Each of the shards above it leads to an empty one 256 times."""
        field = bytes([255]) * 32
        message = data_message(SHARD, field, hash_type=0x22, fanout=256)
        root = shard({}, 1)
        for _ in range(7):
            root = node(1, message, [(b"%02X" % slot, root) for slot in range(256)])
        run = self.unpack(car_of(root), preexec_fn=self.limited)
        self.assertEqual(run.status, CHECK_FAILED)

    def test_deep_folders(self):
        """The system has no longer paths than 4,095 bytes."""
        root, entries = plain((b"x", A)), {b"x": b"aa"}
        for level in range(1, TOO_DEEP + 1):
            root = plain((b"d", root))
            if level == LEVELS:
                for _ in range(LEVELS):
                    entries = {b"d": entries}
                self.check_unpacked(car_of(root), entries)
        self.check_stops(car_of(root), "dir/d/d/d", status=ERROR)
        root = nested(A, *[b"d" * 255] * 20)
        self.check_stops(car_of(root), "dir/ddd", "--preserve", status=ERROR, stream=True)


class MaxSizeTest(UnpackTest):
    def test_the_size(self):
        for root, files in [
            (SMALL, 6),
            (folder({}), 0),
            (folder({b"a": folder({}), b"b": shard({}, 1), b"c": symlink(b"x")}), 0),
            (plain((b"a", file_of(bytes(5000))), (b"b", file_of(bytes(5000)))), 10_000),
            (shard({b"%d" % number: file_of(bytes(100)) for number in range(100)}, 1), 10_000),
            (plain((b"tall", INSIDE[b"tall"])), 40),
        ]:
            data = car_of(root)
            entries = expected_of(data)
            size = files + ENTRY_SIZE * count_of(entries)
            for options in [], ["--preserve"]:
                with self.subTest(root=str(root.cid), size=size):
                    self.check_unpacked(data, entries, f"--max-size={size or 1}", *options)
                    if size:
                        options = [f"--max-size={size - 1}", *options]
                        self.check_stops(data, "some.car", *options)
                        self.check_stops(data, "-: ", *options, stream=True)

    def test_units(self):
        data = car_of(plain((b"a", file_of(bytes(4096)))))
        self.check_unpacked(data, {b"a": bytes(4096)}, "--max-size", "8K")
        self.check_stops(data, "some.car", "--max-size", "7K")
        for size in "x", "-1", "1X", "":
            self.assertEqual(self.unpack(data, f"--max-size={size}").status, ERROR)

    def test_a_file_over_the_size(self):
        """The message has the CID of the file, or names the option."""
        big = file_of(bytes(10_000), RAW_LEAVES)
        self.check_stops(car_of(plain((b"big", big))), big.cid, "--max-size=9K")
        many = plain(*((b"%d" % number, A) for number in range(9)))
        self.check_stops(car_of(many), "--max-size", "--max-size=9K")


class FolderTest(UnpackTest):
    """Tests of the name of the new folder."""

    def check_refused(self, directory, why="", name=None):
        """Fails unless this name is refused before anything is written."""
        run = self.unpack(car_of(SMALL), directory=directory, fresh=False)
        name = directory if name is None else name
        self.assertEqual(run.status, ERROR, run.err)
        self.assertTrue(run.err.startswith(f"ipld: {name}: ".encode()), run.err)
        self.assertIn(why, run.err.decode())

    def check_made(self, directory, at=None, fresh=False):
        at = self.work / (at or directory)
        run = self.unpack(car_of(SMALL), directory=directory, fresh=fresh)
        self.assertEqual((run.err, run.status), (b"", DONE))
        self.assertEqual(tree(at), expected_of(car_of(SMALL)))
        shutil.rmtree(at)

    def test_names(self):
        (self.work / "sub").mkdir()
        for name in [
            "new",
            "sub/new",
            "./new",
            "sub/../new",
            "../outside/new",
            str(self.top / "new"),
            "new/",
            "new//",
            "new/.",
            "sub//new",
            "é new",
            "-new",
            "x" * 255,
            "new\nline",
            ".new.ipld-1",
        ]:
            with self.subTest(name=name):
                self.check_made(f"./{name}" if name == "-new" else name, name)

    def test_a_name_below_a_link(self):
        """The folder above the new one may be a link, which is resolved."""
        (self.work / "sub").mkdir()
        (self.work / "to").symlink_to("sub")
        self.check_made("to/new", "sub/new")

    def test_empty_folders(self):
        self.dir.mkdir()
        self.dir.chmod(0o711)
        self.check_made("dir")
        self.dir.mkdir()
        self.check_made("dir/", "dir")
        self.dir.mkdir()
        self.check_made(str(self.dir))

    def test_folders_that_are_not_empty(self):
        for make in pathlib.Path.mkdir, pathlib.Path.touch, lambda it: it.symlink_to("no-such"):
            self.dir.mkdir()
            make(self.dir / ".x")
            self.check_refused("dir", "not empty")
            self.check_refused("dir/", "not empty")
            shutil.rmtree(self.dir)

    def test_other_kinds(self):
        (self.work / "empty").mkdir()
        for make in [
            lambda: self.dir.write_bytes(b"stays"),
            lambda: self.dir.write_bytes(b""),
            lambda: self.dir.symlink_to("empty"),
            lambda: self.dir.symlink_to("no-such"),
            lambda: self.dir.symlink_to("x"),
            lambda: self.dir.symlink_to("dir"),
            lambda: os.mkfifo(self.dir),
        ]:
            make()
            self.check_refused("dir", "not a folder")
            self.assertEqual(list((self.work / "empty").iterdir()), [])
            self.dir.unlink()

    def test_a_link_with_a_slash(self):
        """With a slash after it, the name of a link is that of the folder that it leads to."""
        (self.work / "empty").mkdir()
        (self.work / "to").symlink_to("empty")
        self.check_refused("to/")

    def test_no_names(self):
        for name in ".", "..", "/", "", "//", "x/..", "link/..", "./.":
            with self.subTest(name=name):
                self.check_refused(name, name=name or "''")

    def test_missing_folders(self):
        for name in "no/dir", "no/no/dir", "x/dir", "link/no/dir":
            with self.subTest(name=name):
                self.check_refused(name)

    def test_long_names(self):
        self.check_refused("x" * 256)
        self.check_refused("x/" * 3000 + "x")

    def test_folders_that_others_can_write_to(self):
        (self.work / "sub").mkdir()
        for mode, is_shared in [
            (0o777, True),
            (0o775, True),
            (0o757, True),
            (0o770, True),
            (0o2775, True),
            (0o702, True),
            (0o1777, False),
            (0o1775, False),
            (0o755, False),
            (0o700, False),
            (0o705, False),
        ]:
            self.work.chmod(mode)
            with self.subTest(mode=oct(mode)):
                if is_shared:
                    real = os.path.realpath(self.work)
                    self.check_refused("dir", f"others can write to {real};")
                    self.check_refused("sub/dir", f"others can write to {real};")
                else:
                    self.check_made("dir")
                    self.check_made("sub/dir")
        self.work.chmod(0o755)


class TemporaryTest(UnpackTest):
    """Tests of the folder next to the new one, which stays if a run is killed."""

    # The first file comes, and the last doesn't.
    DATA = car_of(plain((b"a", file_of(b"text")), (b"b", plain((b"c", A))), (b"d", B)))
    CUT = DATA[: -len(framed(B.cid + B.block.data))]
    ENTRIES = {b"a": b"text", b"b": {b"c": b"aa"}, b"d": b"bbb"}

    def left(self):
        return sorted(self.work.glob(".dir.ipld-*"))

    def begun(self, running, count=1):
        """Gives a program the CAR without its last block. Returns the folder that it then makes."""
        running.stdin.write(self.CUT)
        running.stdin.flush()
        path = self.work / f".dir.ipld-{running.pid}"
        deadline = time.monotonic() + SECONDS_FOR_A_RUN
        while not (path / "b" / "c").exists():
            self.assertIsNone(running.poll())
            self.assertLess(time.monotonic(), deadline)
            time.sleep(0.001)
        return path

    def unpacking(self, *arguments):
        command = ["unpack", "-", "-d", "dir", *arguments]
        return self.started(command, self.work, stdin=subprocess.PIPE)

    def test_a_killed_run(self):
        # A signal that this process ignores, as under `nohup`, would be ignored by the run too.
        for number in signal.SIGHUP, signal.SIGINT:
            self.addCleanup(signal.signal, number, signal.signal(number, signal.SIG_DFL))
        for number in 1, 2, 9, 15:
            with self.unpacking() as running:
                path = self.begun(running)
                running.send_signal(number)
                self.assertEqual(self.ended(running).status, -number)
            with self.subTest(signal=number):
                self.assertFalse(self.dir.exists())
                self.assertEqual(self.left(), [path])
                self.assertEqual(stat.S_IMODE(path.lstat().st_mode), 0o700)
                self.check_unpacked(self.DATA, self.ENTRIES, gone=[path])
                self.assertEqual(self.left(), [])
                shutil.rmtree(self.dir)

    def test_killed_runs(self):
        """A run that is killed at any time leaves the whole folder or none, and one other."""
        data = car_of(plain(*((b"%04d" % number, A) for number in range(MANY))))
        (self.top / "some.car").write_bytes(data)
        for number in range(12):
            with self.started("unpack ../some.car -d dir", self.work) as running:
                time.sleep(number * 0.02)
                running.kill()
                self.ended(running)
            self.assertLessEqual(len(self.left()), 1)
            if self.dir.exists():
                self.assertEqual(len(tree(self.dir)), MANY)
                shutil.rmtree(self.dir)
        run = self.run_program("unpack ../some.car -d dir", self.work)
        self.assertEqual((run.err, run.status, self.left()), (b"", DONE, []))

    def test_only_the_owner_can_open_it(self):
        for mask in 0o000, 0o022, 0o077:
            with self.started(
                "unpack - -d dir",
                self.work,
                stdin=subprocess.PIPE,
                preexec_fn=lambda: os.umask(mask) and None,
            ) as running:
                path = self.begun(running)
                self.assertEqual(stat.S_IMODE(path.lstat().st_mode), 0o700)
                self.assertFalse(self.dir.exists())
                run = self.ended(running, self.DATA[len(self.CUT) :])
            self.assertEqual((run.err, run.status), (b"", DONE))
            self.assertEqual(stat.S_IMODE(self.dir.lstat().st_mode), 0o777 & ~mask)
            self.assertEqual(tree(self.dir), self.ENTRIES)
            shutil.rmtree(self.dir)

    def test_two_runs(self):
        """Each has a folder of its own, and the first that ends gives its folder the name."""
        rest = self.DATA[len(self.CUT) :]
        for first in range(2):
            with self.unpacking() as one, self.unpacking() as two:
                both = [self.begun(one), self.begun(two)]
                self.assertEqual(self.left(), sorted(both))
                runs = [one, two]
                run = self.ended(runs[first], rest)
                self.assertEqual((run.err, run.status), (b"", DONE))
                self.assertEqual(self.left(), [both[1 - first]])
                run = self.ended(runs[1 - first], rest)
                self.assertEqual(run.status, ERROR)
                self.assertIn(b"ipld: dir: the folder is not empty", run.err)
            self.assertEqual((self.left(), tree(self.dir)), ([], self.ENTRIES))
            shutil.rmtree(self.dir)

    def test_what_comes_meanwhile(self):
        def make_full():
            self.dir.mkdir()
            (self.dir / "x").write_bytes(b"came")

        (self.work / "empty").mkdir()
        for make, is_made in [
            (self.dir.mkdir, True),
            (make_full, False),
            (lambda: self.dir.write_bytes(b"came"), False),
            (lambda: self.dir.symlink_to("empty"), False),
            (lambda: self.dir.symlink_to("no-such"), False),
        ]:
            with self.unpacking() as running:
                path = self.begun(running)
                make()
                before = snapshot(self.top, str(self.work), [path])
                run = self.ended(running, self.DATA[len(self.CUT) :])
            self.assertEqual(self.left(), [])
            if is_made:
                self.assertEqual((run.err, run.status), (b"", DONE))
                self.assertEqual(tree(self.dir), self.ENTRIES)
                shutil.rmtree(self.dir)
            else:
                self.assertEqual(run.status, ERROR, run.err)
                self.assertTrue(run.err.startswith(b"ipld: dir: "), run.err)
                self.assert_kept(before, str(self.work))
                shutil.rmtree(self.dir, ignore_errors=True)
                self.dir.unlink(missing_ok=True)

    def test_the_next_run_removes_what_is_left(self):
        gone = [self.work / f".dir.ipld-{it}" for it in ("12345", "1", "88-3")]
        for path in gone:
            (path / "sub" / "sub").mkdir(parents=True)
            (path / "sub" / "file").write_bytes(b"left")
            (path / "out").symlink_to("../../outside")
            (path / "sub" / "file-out").symlink_to(self.top / "outside" / "file")
        # A command that writes a file of this name removes it.
        (self.work / ".dir.ipld-77").write_bytes(b"stays")
        for name in ".dir.ipld-x", ".dir.ipld-", ".dir.ipld-5 things", ".dirx.ipld-1", "dir.ipld-1":
            (self.work / name).mkdir()
            (self.work / name / "file").write_bytes(b"stays")
        (self.work / ".dir.ipld-5").symlink_to("../outside")
        (self.work / ".dir.ipld-6").symlink_to("x")
        os.mkfifo(self.work / ".dir.ipld-7")
        locked = self.work / ".dir.ipld-2"
        locked.mkdir()
        (locked / "file").write_bytes(b"stays")
        handle = os.open(locked, os.O_RDONLY)
        fcntl.flock(handle, fcntl.LOCK_EX)
        self.check_unpacked(self.DATA, self.ENTRIES, gone=gone)
        self.assertFalse(any(map(os.path.lexists, gone)))
        os.close(handle)
        self.check_unpacked(self.DATA, self.ENTRIES, gone=[locked])
        self.assertFalse(os.path.lexists(locked))

    def test_what_is_left_in_a_folder_that_others_can_write_to(self):
        """Nothing is removed if the new folder is refused."""
        (self.work / ".dir.ipld-1").mkdir()
        self.work.chmod(0o777)
        self.assertEqual(self.unpack(self.DATA).status, ERROR)
        self.work.chmod(0o755)

    def test_long_names(self):
        """The temporary name has only the beginning of a name."""
        name = "é" * 127
        with self.started(["unpack", "-", "-d", name], self.work, stdin=subprocess.PIPE) as running:
            running.stdin.write(self.CUT)
            running.stdin.flush()
            while not list(self.work.glob(".é*")) and running.poll() is None:
                time.sleep(0.001)
            running.kill()
            self.ended(running)
        (left,) = self.work.glob(".é*")
        self.check_unpacked(self.DATA, self.ENTRIES, directory=name, gone=[left])


class AttributesTest(UnpackTest):
    """Tests of permissions and times."""

    MODES = [0o000, 0o400, 0o644, 0o755, 0o777, 0o111, 0o300, 0o4755, 0o2755, 0o1777, 0o7000]
    TIMES = [
        (0,),
        (1,),
        (1_000_000_000, 123_456_789),
        (1_700_000_000, 999_999_999),
        (2**31 - 1, 1),
    ]

    def made(self, root, *arguments, mask=0o022, **options):
        """Returns the attributes of a new folder, and the time before it was made."""
        (self.top / "now").write_bytes(b"")
        begun = (self.top / "now").stat().st_mtime_ns
        run = self.unpack(
            car_of(root), *arguments, preexec_fn=lambda: os.umask(mask) and None, **options
        )
        self.assertEqual((run.err, run.status), (b"", DONE))
        return attributes(self.dir), begun

    def test_modes(self):
        for mode, write in itertools.product(self.MODES, (folder, shard)):
            inner = write({b"file": file_of(b"text", mode=mode), b"y": folder({})}, 1, mode=mode)
            root = write({b"in": write({b"in": inner}, 1, mode=mode)}, 1, mode=mode)
            with self.subTest(mode=oct(mode), write=write.__name__):
                found, _ = self.made(root, "--preserve")
                default = found.pop(b"/in/in/y")
                self.assertEqual(default[0], 0o755)
                self.assertEqual({it for it, _ in found.values()}, {mode & 0o777})
                self.assertEqual(tree(self.dir), {b"in": {b"in": {b"file": b"text", b"y": {}}}})

    def test_times(self):
        link = symlink(b"file", mtime=(5,), mode=0o600)
        for time_, write in itertools.product(self.TIMES, (folder, shard)):
            entries = {b"file": file_of(b"text", mtime=time_), b"link": link, b"none": A}
            closed = write(entries, 1, mtime=time_, mode=0o000)
            root = write({b"in": write(entries, 1, mtime=time_), b"no": closed}, 1, mtime=time_)
            with self.subTest(time=time_, write=write.__name__):
                found, begun = self.made(root, "--preserve")
                for it in b"/in/none", b"/no/none":
                    self.assertGreaterEqual(found.pop(it)[1], begun)
                seconds, nanoseconds = (*time_, 0)[:2]
                expected = {seconds * 10**9 + nanoseconds}
                self.assertEqual({it for _, it in found.values()}, expected)

    def test_times_that_are_not_set(self):
        for time_ in (-1,), (-1, 5), (-(2**63),):
            entries = {b"file": file_of(b"text", mtime=time_)}
            root = folder({b"in": folder(entries, 1, mtime=time_)}, 1, mtime=time_)
            with self.subTest(time=time_):
                found, begun = self.made(root, "--preserve")
                self.assertGreaterEqual(min(it for _, it in found.values()), begun)

    def test_without_the_option(self):
        more = {"mode": 0o7777, "mtime": (1_000_000_000, 5)}
        inside = {b"file": file_of(b"text", **more), b"raw": A}
        whole = folder({b"in": folder(inside, 1, **more), b"many": shard(inside, 1)}, 1, **more)
        for mask, folders, files in [
            (0o022, 0o755, 0o644),
            (0o077, 0o700, 0o600),
            (0o000, 0o777, 0o666),
            (0o027, 0o750, 0o640),
        ]:
            with self.subTest(mask=oct(mask)):
                found, begun = self.made(whole, mask=mask)
                modes = {path: mode for path, (mode, _) in found.items()}
                expected = {it: folders for it in (b"", b"/in", b"/many")}
                for it in itertools.product((b"/in", b"/many"), (b"/file", b"/raw")):
                    expected[b"".join(it)] = files
                self.assertEqual(modes, expected)
                self.assertGreaterEqual(min(it for _, it in found.values()), begun)
                # With the option, what the CAR doesn't have is as without.
                found, _ = self.made(whole, "--preserve", mask=mask)
                self.assertEqual(found[b"/in/raw"][0], files)
                self.assertEqual(found[b"/many"][0], folders)
                self.assertEqual(found[b"/in/file"][0], 0o777)

    def test_random_folders(self):
        source = Source(SEED + 1)
        for number in range(COUNT):
            made = source.folder()
            expected = {}
            messages_of(made, b"", expected)
            arguments = "--preserve", "--symlinks", "any"
            with self.subTest(number=number, root=str(made.node.cid)):
                found, begun = self.made(made.node, *arguments, stream=number % 2 == 0)
                self.assertEqual(set(found), set(expected))
                for path, (message, default) in expected.items():
                    mode, seconds, nanoseconds = default, -1, 0
                    if message and message.mode is not None:
                        mode = message.mode & 0o777
                    if message and message.mtime:
                        seconds, nanoseconds = message.mtime
                    self.assertEqual(found[path][0], mode, path)
                    if seconds < 0:
                        self.assertGreaterEqual(found[path][1], begun, path)
                    elif seconds < 2**33:
                        self.assertEqual(found[path][1], seconds * 10**9 + nanoseconds, path)
                self.assertEqual(tree(self.dir), tree_of(made))

    def test_sticky_and_set_group_folders(self):
        """The new folder gets what a folder made there gets, without more rights."""
        self.work.chmod(0o2755)
        found, _ = self.made(folder({b"in": folder({b"file": A}, 1)}, 1))
        self.assertEqual({it & 0o777 for it, _ in found.values()}, {0o755, 0o644})
        self.assertEqual(found[b""][0], found[b"/in"][0])
        self.work.chmod(0o755)


def messages_of(made, path, found):
    """Finds the message of each file and folder, and its permissions by default, by path."""
    codec_is_raw = made.node.cid.startswith(bytes([1, RAW]))
    message = None if codec_is_raw else Reader(dict([made.node.block])).node(made.node.cid)[1]
    found[path] = (message, 0o755 if isinstance(made, Folder) else 0o644)
    if isinstance(made, Folder):
        for name, it in made.entries.items():
            if isinstance(it, (Folder, File)):
                messages_of(it, path + b"/" + name, found)


class FailureTest(UnpackTest):
    """Tests of errors of the system."""

    def test_files_that_can_not_be_written(self):
        root = plain((b"a", A), (b"in", plain((b"file", file_of(bytes(100))))), (b"x", B))
        for arguments in [], ["--preserve"]:
            for stream in False, True:
                self.check_stops(
                    car_of(root),
                    "dir/in/file",
                    *arguments,
                    status=ERROR,
                    stream=stream,
                    preexec_fn=small_files,
                )

    def test_a_folder_that_can_not_be_written_to(self):
        """The program has not the rights of root."""
        self.check_as_nobody(lambda: self.work.chmod(0o555), car_of(SMALL), False)
        self.work.chmod(0o755)

    def test_closed_folders(self):
        """A folder that is closed to its owner is complete."""
        for mode in 0o000, 0o100, 0o300, 0o400, 0o500, 0o600:
            inner = folder({b"file": file_of(b"text", mode=0o000)}, 1, mode=mode, mtime=(1,))
            root = folder({b"in": folder({b"in": inner}, 1, mode=mode)}, 1, mode=mode, mtime=(2,))
            with self.subTest(mode=oct(mode)):
                self.check_as_nobody(lambda: None, car_of(root), True)
                found = attributes(self.dir)
                self.assertEqual(
                    {path: it for path, (it, _) in found.items()},
                    {b"": mode, b"/in": mode, b"/in/in": mode, b"/in/in/file": 0o000},
                )
                self.assertEqual((found[b"/in/in"][1], found[b""][1]), (10**9, 2 * 10**9))
                self.assertEqual(tree(self.dir), {b"in": {b"in": {b"file": b"text"}}})
                shutil.rmtree(self.dir)

    def test_closed_folders_of_a_run_that_fails(self):
        """They are removed too."""
        last = symlink(b"/etc/passwd")
        closed = folder({b"in": folder({b"file": A}, 1, mode=0o000)}, 1, mode=0o000)
        root = folder({b"a": closed, b"z": last}, 1, mode=0o000)
        self.check_as_nobody(lambda: None, car_of(root), False)

    def test_a_name_that_is_taken_before_closed_folders_are_in_place(self):
        """They are removed too."""
        closed = folder({b"in": folder({b"file": A}, 1, mode=0o000)}, 1, mode=0o000)
        data = car_of(plain((b"a", closed), (b"b", B)))
        at = len(data) - len(framed(B.cid + B.block.data))
        self.give_to_nobody()
        with self.started(
            "unpack - -d dir --preserve", self.work, stdin=subprocess.PIPE, preexec_fn=as_nobody
        ) as running:
            running.stdin.write(data[:at])
            running.stdin.flush()
            path = self.work / f".dir.ipld-{running.pid}" / "a" / "in" / "file"
            while not path.exists() and running.poll() is None:
                time.sleep(0.001)
            self.dir.mkdir()
            (self.dir / "x").write_bytes(b"came")
            run = self.ended(running, data[at:])
        self.assertEqual(run.status, ERROR)
        self.assertEqual(list(self.work.glob(".dir.ipld-*")), [])

    def give_to_nobody(self):
        """Lets the program run without the rights of root, which the tests may have."""
        if os.geteuid() == 0:
            self.folder.chmod(0o755)
            program = self.folder / "program"
            if not program.exists():
                shutil.copy(self.program, program)
                program.chmod(0o755)
            self.program = program
            self.top.chmod(0o755)
            for path in self.top, self.work:
                os.chown(path, NOBODY, NOBODY)

    def check_as_nobody(self, prepare, data, is_done):
        self.give_to_nobody()
        prepare()
        run = self.unpack(data, "--preserve", preexec_fn=as_nobody)
        self.assertEqual(run.status == DONE, is_done, run.err)
        self.assertTrue(is_done or run.err.startswith(b"ipld: dir"), run.err)
