"""Tests of `ipld pack` and `ipld cid --unixfs`, with the roots that `unixfs.py` computes."""

import collections
import os
import pathlib
import random
import resource
import shutil
import signal
import socket
import tempfile
import time

from .formats import Cid, bases_of, car, cid_from
from .program import ProgramTest
from .random_unixfs import Source
from .rows import DONE, ERROR, usage_error
from .test_salvage import little_memory
from .test_unpack import as_nobody, attributes, tree
from .unixfs import (
    DEFAULT,
    RAW_LEAVES,
    SHARD,
    Profile,
    file_of,
    folder,
    leaf,
    shard,
    symlink,
)
from .unixfs_reader import read_data, read_node

SEED, COUNT, KILLED = 0x9ACC, 40, 30
# A folder is sharded if its names and CIDs have more bytes than this.
SHARDED_ABOVE = 262_144
V1_NODES = Profile(1, False, 262_144, 174)
CHANGED = "it changed while it was read; try again"


class Packing(
    collections.namedtuple(
        "Packing", "profile preserve hidden follow", defaults=(DEFAULT, False, False, False)
    )
):
    """Options of `ipld pack`, and the nodes that it has to make by them."""

    __slots__ = ()

    @property
    def arguments(self):
        version, raw, chunk, width = self.profile
        words = ["--cid-version", str(version), "--raw-leaves" if raw else "--no-raw-leaves"]
        words += ["--chunk", str(chunk), "--width", str(width)]
        words += [f"--{name}" for name in ("preserve", "hidden") if getattr(self, name)]
        return words + ["--symlinks", "follow" if self.follow else "keep"]

    def more(self, info, is_link=False):
        """Returns the mode and the time that are packed."""
        if not self.preserve:
            return {}
        more = {"mtime": divmod(info.st_mtime_ns, 10**9)}
        return more if is_link else {"mode": info.st_mode & 0o7777, **more}

    def file(self, content, **more):
        # The root is a node if it has a mode or a time, also where it is the only leaf.
        if more and self.profile.raw_leaves and len(content) <= self.profile.chunk:
            return leaf(self.profile.version, content, **more)
        return file_of(content, self.profile, **more)

    def folder(self, entries, **more):
        size = sum(len(name) + len(it.cid) for name, it in entries.items())
        made = shard if size > SHARDED_ABOVE else folder
        return made(entries, version=self.profile.version, **more)

    def node(self, path):
        """Returns the node of what is at a path."""
        path = os.fsencode(path)
        if os.path.islink(path) and not self.follow:
            more = self.more(os.lstat(path), is_link=True)
            return symlink(os.readlink(path), self.profile.version, **more)
        more = self.more(os.stat(path))
        if os.path.isdir(path):
            names = [it for it in os.listdir(path) if self.hidden or not it.startswith(b".")]
            return self.folder({it: self.node(os.path.join(path, it)) for it in names}, **more)
        return self.file(pathlib.Path(os.fsdecode(path)).read_bytes(), **more)


PLAIN = Packing()


def walked(root):
    """
    Returns the blocks of a node and of all below it, each once: the root first, and the entries of a
    shard before the shards below it.
    """
    found, pending = {}, [root]
    while pending:
        it = pending.pop()
        if it.cid in found:
            continue
        found[it.cid] = it.block
        links = it.links
        if any(name for name, _ in links) and read_data(read_node(it.block.data)[1]).kind == SHARD:
            links = sorted(links, key=lambda link: len(link[0]) == 2)
        pending += [child for _, child in reversed(links)]
    return list(found.values())


def write_tree(path, entries):
    """Writes files, links and folders, which are bytes, strings and dictionaries by name."""
    path.mkdir()
    for name, it in entries.items():
        at = path / name
        if isinstance(it, dict):
            write_tree(at, it)
        elif isinstance(it, str):
            at.symlink_to(it)
        else:
            at.write_bytes(it)


class PackTest(ProgramTest):
    """A test in a folder of its own."""

    def setUp(self):
        self.work = pathlib.Path(tempfile.mkdtemp(dir=self.folder))

    def pack(self, *arguments, **options):
        return self.run_program(["pack", *map(str, arguments)], self.work, **options)

    def check_packed(self, path, packing=PLAIN, expected=None, arguments=()):
        """
        Packs a path. Fails unless the root and the CAR are as expected, and the folder comes back.
        Returns the CAR.
        """
        expected = expected or packing.node(self.work / path)
        run = self.pack(path, "-o", "x.car", "-f", *packing.arguments, *arguments)
        self.assertEqual((run.err, run.status), (b"", DONE))
        self.assertEqual(run.out.decode(), f"{expected.cid}\n")
        data = (self.work / "x.car").read_bytes()
        self.assertEqual(data, car([expected.cid], walked(expected)))
        return data

    def check_back(self, data, path, *arguments, **options):
        """Fails unless `ipld unpack` makes of a CAR what is at a path."""
        shutil.rmtree(self.work / "back", ignore_errors=True)
        words = ["unpack", "-", "-d", "back", "--symlinks", "any", *arguments]
        run = self.run_program(words, self.work, input=data, **options)
        self.assertEqual((run.out, run.err, run.status), (b"", b"", DONE))
        self.assertEqual(tree(self.work / "back"), tree(self.work / path))

    def check_fails(self, name, why, *arguments, status=ERROR, **options):
        """Fails unless the program reports an error, and leaves nothing."""
        before = sorted(os.listdir(self.work))
        run = self.pack(*arguments, **options)
        self.assertEqual((run.out, run.status), (b"", status), run.err)
        self.assertEqual(run.err.decode(errors="surrogateescape"), f"ipld: {name}: {why}\n")
        self.assertEqual(sorted(os.listdir(self.work)), before)

    def check_usage(self, why, *arguments, **options):
        run = self.pack(*arguments, **options)
        self.assertEqual((run.out, run.err.decode(), run.status), (b"", usage_error(why), ERROR))

    def root_of(self, *arguments, **options):
        """Returns the CID that `ipld cid --unixfs` prints."""
        run = self.run_program(["cid", "--unixfs", *map(str, arguments)], self.work, **options)
        self.assertEqual((run.err, run.status), (b"", DONE))
        return run.out.decode()


class RootTest(PackTest):
    def test_files_of_edge_sizes(self):
        choose = random.Random(SEED)
        small = [Profile(version, raw, 64, 3) for version in (0, 1) for raw in (False, True)]
        sizes = [0, 1, 63, 64, 65, 191, 192, 193, 575, 576, 577, 1728, 1729]
        large = [DEFAULT, RAW_LEAVES, V1_NODES]
        chunk = DEFAULT.chunk
        cases = [(it, size) for it in small for size in sizes]
        cases += [(it, size) for it in large for size in (0, 1, chunk - 1, chunk, chunk + 1)]
        cases.append((Profile(0, False, 1024, 174), 1024 * 174 + 1))
        for profile, size in cases:
            content = choose.randbytes(size)
            (self.work / "file").write_bytes(content)
            with self.subTest(profile=profile, size=size):
                packing = Packing(profile)
                expected = file_of(content, profile)
                data = self.check_packed("file", packing, expected, ["--no-wrap"])
                self.assertEqual(self.root_of("file", *packing.arguments), f"{expected.cid}\n")
                run = self.run_program(["cat", "-"], input=data)
                self.assertEqual((run.out, run.err, run.status), (content, b"", DONE))

    def test_profiles_of_ipfs(self):
        content = bytes(range(256)) * 1025
        (self.work / "file").write_bytes(content)
        for arguments, profile in [
            ((), DEFAULT),
            (("--cid-version", "0"), DEFAULT),
            (("--raw-leaves",), Profile(0, True, 262_144, 174)),
            (("--cid-version", "1"), RAW_LEAVES),
            (("--cid-version", "1", "--raw-leaves"), RAW_LEAVES),
            (("--cid-version", "1", "--no-raw-leaves"), V1_NODES),
            (("--cid-version", "1", "--chunk", "1M"), Profile(1, True, 1 << 20, 174)),
            (("--width", "2", "--chunk", "64K"), Profile(0, False, 1 << 16, 2)),
        ]:
            with self.subTest(arguments=arguments):
                root = file_of(content, profile).cid
                self.assertEqual(self.root_of("file", *arguments), f"{root}\n")

    def test_recorded_roots(self):
        # Roots that `ipfs add` printed.
        write_tree(self.work / "dir", {"b": "foobar", "a": {}})
        os.rename(self.work / "dir" / "a", self.work / "dir" / "not_link")
        for data, root in [
            (b"", "QmbFMke1KXqnYyBBWxB74N4c5SBnJMVAiMNRcGu6x1AwQH"),
            (b"hello world", "Qmf412jQZiuVUtdgnB36FXFX7xg5V6KEbSJ4dpQuhkLyfD"),
            (b"foobar\n", "QmRgutAxd8t7oGkSm4wmeuByG6M51wcTso6cubDdQtuEfL"),
        ]:
            self.assertEqual(self.root_of("-", input=data), f"{root}\n")
        (self.work / "empty").mkdir()
        empty = self.root_of("empty")
        self.assertEqual(empty, "QmUNLLsPACCz1vLxQVkXqqLX5R1X345qqfHbsf67hvA3Nn\n")
        empty = self.root_of("empty", "--cid-version", "1")
        self.assertEqual(empty, "bafybeiczsscdsbs7ffqz55asqdf3smv6klcw3gofszvwlyarci47bgf354\n")

    def test_forms_of_the_root(self):
        (self.work / "file").write_bytes(b"text")
        (self.work / "dir").mkdir()
        root, other = file_of(b"text").cid, folder({}).cid
        v1 = Cid(b"\x01\x70" + root)
        self.assertEqual(self.root_of("file", "dir"), f"{root}\n{other}\n")
        self.assertEqual(self.root_of("file", "--v1"), f"{v1}\n")
        base36 = bases_of(v1)["base36"]
        self.assertEqual(self.root_of("file", "--v1", "-b", "base36"), f"{base36}\n")
        run = self.run_program(["cid", "--unixfs", "no-such"], self.work)
        self.assertEqual((run.out, run.status), (b"", ERROR))
        self.assertIn(b"ipld: no-such: ", run.err)

    def test_options_of_cid_without_unixfs(self):
        for option in ["--hidden"], ["--chunk", "1K"], ["--cid-version", "1"], ["--raw-leaves"]:
            run = self.run_program(["cid", "file", *option], self.work)
            self.assertEqual((run.out, run.status), (b"", ERROR), option)


class FolderTest(PackTest):
    def test_random_folders(self):
        source = Source(SEED)
        choose = random.Random(SEED)
        for number in range(COUNT):
            path = self.work / f"dir{number}"
            write_tree(path, self.random_tree(source, choose, 0))
            profile = Profile(
                choose.randrange(2), choose.random() < 0.5, choose.choice((1, 7, 64, 4096)), 3
            )
            packing = Packing(profile, choose.random() < 0.3, choose.random() < 0.5)
            with self.subTest(number=number, packing=packing):
                data = self.check_packed(path.name, packing)
                root = self.root_of(path.name, *packing.arguments)
                self.assertEqual(
                    root.encode(), self.pack(path.name, "-o", "y", "-f", *packing.arguments).out
                )
                if packing.hidden:
                    self.check_back(data, path.name, "--hold", "64M")

    def random_tree(self, source, choose, depth):
        """Returns the tree of a random folder, in which things are often the same."""
        entries = {}
        for _ in range(choose.randrange(7)):
            kind = choose.random()
            if kind < 0.5:
                content = choose.randbytes(choose.choice((0, 1, 2, 7, 8, 64, 300)))
                content = choose.choice((content, b"", b"same", bytes(500)))
                entries[source.name().decode()] = content
            elif kind < 0.65:
                entries[source.name().decode()] = choose.choice(("a", "../b", "/c"))
            elif kind < 0.75:
                entries[source.name().decode()] = {"x": b"same", "y": {"z": b"zz"}}
            elif depth < 3:
                entries[source.name().decode()] = self.random_tree(source, choose, depth + 1)
        return entries

    def test_the_limit_of_plain_folders(self):
        content = b""
        cid = len(file_of(content).cid)
        count = SHARDED_ABOVE // (cid + 222)
        for more in (0, 1):
            # The names have three digits, and together as many bytes as are left.
            lengths = [222] * count
            lengths[0] += SHARDED_ABOVE - count * (cid + 222) + more
            while lengths[0] > 250:
                at = lengths.index(222)
                lengths[at], lengths[0] = 250, lengths[0] - 28
            names = [f"{at:04}".ljust(length, "n") for at, length in enumerate(lengths)]
            self.assertEqual(sum(map(len, names)) + count * cid, SHARDED_ABOVE + more)
            path = self.work / f"dir{more}"
            write_tree(path, dict.fromkeys(names, content))
            with self.subTest(more=more):
                data = self.check_packed(path.name)
                self.check_back(data, path.name)

    def test_sharded_folders(self):
        entries = {f"{at} {'name' * 50}": b"%d" % at for at in range(1500)}
        entries["folder"] = {"in": b"x", "deep": {"er": b"er"}}
        entries["link"] = "folder/in"
        write_tree(self.work / "dir", {"many": entries, "a": b"a", "again": entries})
        # Nothing is held: the blocks come in the order of the walk.
        shutil.rmtree(self.work / "dir" / "again")
        data = self.check_packed("dir")
        self.check_back(data, "dir", "--hold", "1")
        self.check_packed("dir", Packing(RAW_LEAVES, preserve=True))

    def test_shards_that_two_folders_share(self):
        entries = {f"{at} {'name' * 50}": b"%d" % at for at in range(1500)}
        write_tree(self.work / "dir", {"a": entries, "b": {**entries, "more": b"more"}})
        expected = PLAIN.node(self.work / "dir")
        run = self.pack("dir", "-o", "x.car")
        self.assertEqual((run.out.decode(), run.status), (f"{expected.cid}\n", DONE))
        listed = self.run_program("car list --json x.car", self.work)
        self.assertEqual(listed.status, DONE)
        self.assertEqual(set(self.cids("x.car")), {it.cid for it in walked(expected)})
        self.assertEqual(self.run_program("car verify x.car", self.work).status, DONE)
        self.check_back((self.work / "x.car").read_bytes(), "dir", "--hold", "64M")

    def cids(self, name):
        listed = self.run_program(["car", "list", name], self.work)
        self.assertEqual(listed.status, DONE)
        return [cid_from(it.split()[0]) for it in listed.out.decode().splitlines() if it[0] in "Qb"]

    def test_many_files(self):
        count = (1 << 16) + 10
        path = self.work / "dir"
        path.mkdir()
        for at in range(count):
            (path / str(at)).write_bytes(b"%d" % (at % 100))
        run = self.pack("dir", "-o", "x.car")
        expected = PLAIN.folder({b"%d" % at: file_of(b"%d" % (at % 100)) for at in range(count)})
        self.assertEqual((run.out.decode(), run.err, run.status), (f"{expected.cid}\n", b"", DONE))

    def test_attributes(self):
        write_tree(self.work / "dir", {"a": b"a", "b": {"c": b"c", "l": "c"}, "e": b""})
        for name, mode in ("a", 0o640), ("b/c", 0o4755), ("e", 0o600), ("b", 0o710), ("", 0o755):
            at = self.work / "dir" / name
            at.chmod(mode)
        for name, time_ns in ("a", 1), ("b/c", 10**18), ("e", 1_700_000_000 * 10**9), ("b", 0):
            os.utime(self.work / "dir" / name, ns=(0, time_ns))
        for profile in DEFAULT, V1_NODES, RAW_LEAVES, Profile(0, True, 1, 2):
            with self.subTest(profile=profile):
                data = self.check_packed("dir", Packing(profile, preserve=True))
        self.check_back(data, "dir", "--preserve")
        found, made = attributes(self.work / "dir"), attributes(self.work / "back")
        self.assertEqual({it: (mode & 0o777, at) for it, (mode, at) in found.items()}, made)
        # As `ipfs add --preserve-mode` does, nodes instead of raw leaves.
        expected = Packing(V1_NODES, preserve=True).node(self.work / "dir").cid
        root = self.root_of("dir", "--cid-version", "1", "--preserve")
        self.assertEqual(root, f"{expected}\n")

    def test_hidden_entries(self):
        entries = {".hidden": b"h", "seen": {".in": {"x": b"x"}, "y": b"y"}, "..a": b"a"}
        write_tree(self.work / ".dir", entries)
        for hidden in False, True:
            self.check_packed(".dir", Packing(hidden=hidden))

    def test_symbolic_links(self):
        write_tree(self.work / "dir", {"a": {"b": b"b"}, "to": "a", "file": "a/b", "up": "../x"})
        (self.work / "x").write_bytes(b"x")
        self.check_packed("dir")
        self.check_packed("dir", Packing(follow=True))
        (self.work / "link").symlink_to("dir")
        self.check_packed("link", expected=folder({b"link": symlink(b"dir")}))
        self.check_packed("link", expected=symlink(b"dir"), arguments=["--no-wrap"])
        self.check_packed("link", Packing(follow=True))
        (self.work / "dir" / "loop").symlink_to(".")
        why = "a symbolic link leads to a folder that it is in; leave links as they are"
        self.check_fails("dir/loop", why, "dir", "-o", "y.car", "--symlinks", "follow")
        os.remove(self.work / "dir" / "loop")
        (self.work / "dir" / "nowhere").symlink_to("no-such")
        self.check_packed("dir")
        why = "No such file or directory (os error 2)"
        self.check_fails("dir/nowhere", why, "dir", "-o", "y.car", "--symlinks", "follow")

    def test_patterns(self):
        entries = {
            "a.txt": b"a",
            "b.md": b"b",
            "in": {"a.txt": b"c", "c": {"d.md": b"d"}},
            "out": {"x": b"x"},
        }
        write_tree(self.work / "dir", entries)
        a, b, c, d = (file_of(it) for it in (b"a", b"b", b"c", b"d"))
        out = folder({b"x": file_of(b"x")})
        whole_in = folder({b"a.txt": c, b"c": folder({b"d.md": d})})
        for patterns, kept in [
            (["*.txt"], {b"b.md": b, b"in": folder({b"c": folder({b"d.md": d})}), b"out": out}),
            (["/*.txt", "out/"], {b"b.md": b, b"in": whole_in}),
            (
                ["in/**/d.md", "b.md/"],
                {
                    b"a.txt": a,
                    b"b.md": b,
                    b"in": folder({b"a.txt": c, b"c": folder({})}),
                    b"out": out,
                },
            ),
            (
                ["*", "!in", "!c", "!*.md"],
                {b"b.md": b, b"in": folder({b"c": folder({b"d.md": d})})},
            ),
            (["in", "!in/a.txt", "[!ab]ut"], {b"a.txt": a, b"b.md": b}),
            (
                ["dir", "x/../a.txt", "A.TXT"],
                {b"a.txt": a, b"b.md": b, b"in": whole_in, b"out": out},
            ),
        ]:
            with self.subTest(patterns=patterns):
                words = [word for it in patterns for word in ("--ignore", it)]
                self.check_packed("dir", expected=folder(kept), arguments=words)
                self.assertEqual(self.root_of("dir", *words), f"{folder(kept).cid}\n")
        os.mkfifo(self.work / "dir" / "pipe")
        self.check_packed(
            "dir", expected=folder({b"b.md": b}), arguments=["--ignore", "*", "--ignore", "!b.md"]
        )


class PathTest(PackTest):
    def test_what_is_wrapped(self):
        (self.work / "a").write_bytes(b"a")
        write_tree(self.work / "dir", {"x": b"x"})
        a, inside = file_of(b"a"), folder({b"x": file_of(b"x")})
        both = folder({b"a": a, b"dir": inside})
        for arguments, root in [
            (["a"], folder({b"a": a})),
            (["./a"], folder({b"a": a})),
            (["a", "--no-wrap"], a),
            (["dir"], inside),
            (["dir/"], inside),
            (["dir/."], inside),
            (["dir", "--no-wrap"], inside),
            (["a", "dir"], both),
            (["dir/", "./a"], both),
            (["dir/x", "a"], folder({b"a": a, b"x": file_of(b"x")})),
        ]:
            with self.subTest(arguments=arguments):
                run = self.pack(*arguments, "-o", "x.car", "-f")
                expected = (f"{root.cid}\n".encode(), b"", DONE)
                self.assertEqual((run.out, run.err, run.status), expected)
                data = (self.work / "x.car").read_bytes()
                self.assertEqual(data, car([root.cid], walked(root)))
        run = self.run_program(["pack", ".", "-o", "../x.car"], self.work / "dir")
        self.assertEqual(run.err, b"ipld: ../x.car: the file exists; --force replaces it\n")
        run = self.run_program(["pack", ".", "-f", "-o", "../x.car"], self.work / "dir")
        self.assertEqual(run.out.decode(), f"{inside.cid}\n")

    def test_wrong_paths(self):
        (self.work / "a").write_bytes(b"a")
        write_tree(self.work / "dir", {"a": b"x"})
        several = "--no-wrap is for one path: several have no root without a folder around them"
        self.check_usage(several, "a", "dir", "--no-wrap", "-o", "x.car")
        no_name = "'{}' ends in no name: give the path by its name"
        self.check_usage(no_name.format("dir/.."), "a", "dir/..", "-o", "x.car")
        self.check_usage("standard input has no name: use --no-wrap", "-", "-o", "x.car", input=b"")
        twice = "'-' is given more than once, but standard input can be read only once"
        self.check_usage(twice, "-", "-", "-o", "x.car", input=b"")
        same = "two paths end in this name; pack the folder that they are in"
        self.check_fails("dir/a", same, "a", "dir/a", "-o", "x.car")
        self.check_fails("no", "No such file or directory (os error 2)", "no", "-o", "x.car")
        for option, why in [
            (
                ["--chunk", "1025K"],
                "--chunk <SIZE> is at most 1M, since other programs take no longer blocks",
            ),
            (["--width", "1"], "--width <N> is a number from 2 to 8192"),
            (["--width", "8193"], "--width <N> is a number from 2 to 8192"),
            (["--width", "x"], "--width <N> is a number from 2 to 8192"),
        ]:
            self.check_usage(why, "a", "-o", "x.car", *option)
        self.assertNotIn("x.car", os.listdir(self.work))

    def test_special_files(self):
        special = "neither a file, a folder nor a symbolic link; leave it out"
        write_tree(self.work / "dir", {"a": b"a"})
        os.mkfifo(self.work / "dir" / "pipe")
        self.check_fails("dir/pipe", special, "dir", "-o", "x.car")
        os.remove(self.work / "dir" / "pipe")
        with socket.socket(socket.AF_UNIX) as bound:
            bound.bind(str(self.work / "dir" / "socket"))
            self.check_fails("dir/socket", special, "dir", "-o", "x.car")
        os.remove(self.work / "dir" / "socket")
        (self.work / "dir" / "inner").mkdir()
        (pathlib.Path(os.fsdecode(os.fsencode(self.work) + b"/dir/inner/\xff"))).write_bytes(b"")
        why = "the name of an entry is not valid UTF-8; rename it"
        self.check_fails("dir/inner", why, "dir", "-o", "x.car")

    def test_what_cannot_be_read(self):
        write_tree(self.work / "dir", {"a": b"a", "in": {"b": b"b"}})
        self.work.chmod(0o777)
        self.folder.chmod(0o755)
        (self.work / "dir" / "a").chmod(0)
        why = "Permission denied (os error 13)"
        self.check_fails("dir/a", why, "dir", "-o", "x.car", preexec_fn=as_nobody)
        (self.work / "dir" / "a").chmod(0o644)
        (self.work / "dir" / "in").chmod(0)
        self.check_fails("dir/in", why, "dir", "-o", "x.car", preexec_fn=as_nobody)

    def test_files_that_change(self):
        # Their length is 0, and they have bytes.
        self.check_fails("/proc/self/stat", CHANGED, "/proc/self/stat", "-o", "x.car")
        big = self.work / "big"
        for change in -1, 1:
            with open(big, "wb") as file:
                file.truncate(1 << 29)
            with self.started(["pack", "big", "-o", "x.car"], self.work) as running:
                while not any(it.startswith(".x.car") for it in os.listdir(self.work)):
                    time.sleep(0.001)
                time.sleep(0.05)
                os.truncate(big, (1 << 29) + change)
                run = self.ended(running)
            self.assertEqual(run.err.decode(), f"ipld: big: {CHANGED}\n")
            self.assertEqual((run.status, os.listdir(self.work)), (ERROR, ["big"]))

    def test_pipes(self):
        os.mkfifo(self.work / "pipe")
        content = random.Random(SEED).randbytes(600_000)
        root = folder({b"pipe": file_of(content)})
        with self.started(["pack", "pipe", "-o", "x.car"], self.work) as running:
            with self.pipe_to(running, self.work / "pipe") as pipe:
                pipe.write(content)
            run = self.ended(running)
        self.assertEqual((run.out.decode(), run.err), (f"{root.cid}\n", b""))
        self.assertEqual((self.work / "x.car").read_bytes(), car([root.cid], walked(root)))
        run = self.pack("-", "--no-wrap", "-o", "x.car", "-f", input=content)
        self.assertEqual(run.out.decode(), f"{file_of(content).cid}\n")
        self.assertEqual(self.root_of("-", input=content), f"{file_of(content).cid}\n")


class OutputTest(PackTest):
    def test_standard_output(self):
        write_tree(self.work / "dir", {"a": b"a", "b": {"c": bytes(300_000)}})
        root = PLAIN.node(self.work / "dir")
        expected = car([root.cid], walked(root))
        run = self.pack("dir", "-o", "-")
        self.assertEqual((run.out, run.err.decode(), run.status), (expected, f"{root.cid}\n", DONE))
        os.mkfifo(self.work / "pipe")
        with self.started(["pack", "dir", "-o", "pipe"], self.work) as running:
            with open(self.work / "pipe", "rb") as pipe:
                self.assertEqual(pipe.read(), expected)
            run = self.ended(running)
        self.assertEqual((run.out.decode(), run.err, run.status), (f"{root.cid}\n", b"", DONE))

    def test_outputs_that_are_there(self):
        write_tree(self.work / "dir", {"a": b"a"})
        (self.work / "x.car").write_bytes(b"there")
        (self.work / "x.car").chmod(0o640)
        exists = "the file exists; --force replaces it"
        self.check_fails("x.car", exists, "dir", "-o", "x.car")
        self.assertEqual((self.work / "x.car").read_bytes(), b"there")
        self.check_packed("dir")
        self.assertEqual((self.work / "x.car").stat().st_mode & 0o777, 0o640)
        self.check_fails("dir", "not a regular file", "dir/a", "-o", "dir", "-f")
        is_input = "the output is also an input; choose another name"
        self.check_fails("dir/a", is_input, "dir", "-o", "dir/a", "-f")
        self.check_fails("dir/a", is_input, "dir/a", "-o", "dir/a", "-f")
        self.assertEqual((self.work / "dir" / "a").read_bytes(), b"a")

    def test_an_output_in_the_folder(self):
        write_tree(self.work / "dir", {"a": b"a"})
        root = PLAIN.node(self.work / "dir")
        run = self.pack("dir", "-o", "dir/x.car", "--hidden")
        self.assertEqual((run.out.decode(), run.status), (f"{root.cid}\n", DONE))
        self.assertEqual(sorted(os.listdir(self.work / "dir")), ["a", "x.car"])

    def test_a_full_disk(self):
        write_tree(self.work / "dir", {"a": random.Random(SEED).randbytes(1 << 20)})

        def small():
            signal.signal(signal.SIGXFSZ, signal.SIG_IGN)
            resource.setrlimit(resource.RLIMIT_FSIZE, (1 << 19, 1 << 19))

        why = "File too large (os error 27)"
        self.check_fails("x.car", why, "dir", "-o", "x.car", preexec_fn=small)

    def test_killed_runs(self):
        content = random.Random(SEED).randbytes(3 << 20)
        write_tree(self.work / "dir", {str(at): content[at:] for at in range(10)})
        begun = time.monotonic()
        root = self.pack("dir", "-o", "whole.car").out
        took = time.monotonic() - begun
        for number in range(KILLED):
            with self.started(["pack", "dir", "-o", "x.car"], self.work) as running:
                time.sleep(took * number / KILLED)
                running.send_signal((signal.SIGKILL, signal.SIGINT, signal.SIGTERM)[number % 3])
                self.ended(running)
            if "x.car" in os.listdir(self.work):
                self.assertEqual(
                    (self.work / "x.car").read_bytes(), (self.work / "whole.car").read_bytes()
                )
                os.remove(self.work / "x.car")
        self.assertEqual(self.pack("dir", "-o", "x.car").out, root)
        self.assertEqual(sorted(os.listdir(self.work)), ["dir", "whole.car", "x.car"])

    def test_large_files_in_little_memory(self):
        with open(self.work / "big", "wb") as file:
            file.truncate(300 << 20)
            file.seek(100 << 20)
            file.write(random.Random(SEED).randbytes(1 << 20))

        run = self.pack("big", "--no-wrap", "-o", "x.car", preexec_fn=little_memory)
        self.assertEqual((run.err, run.status), (b"", DONE))
        with open(self.work / "big", "rb") as file:
            self.assertEqual(run.out.decode(), f"{file_of(file.read()).cid}\n")
