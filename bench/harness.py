"""The static library, the crates of the peers, and the harness over both."""

import os
import pathlib
import re
import shutil
import subprocess
import sys
import tempfile

import data

BENCH = pathlib.Path(__file__).resolve().parent
CRATE = BENCH.parent / "crates" / "bench_kombilad"
OUT = BENCH / "out"
# Outside of the checkout, in which `rt ci` takes no links.
CACHE = pathlib.Path(os.environ.get("XDG_CACHE_HOME") or pathlib.Path.home() / ".cache")
REGISTRY = CACHE / "kombilad-bench" / "registry"
OURS = "ours"

# The features of the harness, and the crates of crates.io that each needs.
PEERS = {
    "cid": ["cid"],
    "ipld-core": ["ipld-core", "serde", "serde_derive"],
    "serde_cbor": ["serde_cbor", "serde", "serde_derive", "serde_bytes"],
    "serde_ipld_dagcbor": [
        "serde_ipld_dagcbor",
        "ipld-core",
        "serde",
        "serde_derive",
        "serde_bytes",
    ],
}
# What a crate that isn't had is called, and in which version, so that cargo finds one where it
# looks at all that could be built.
STAND_INS = {
    "cid": "0.11.0",
    "ipld-core": "0.4.3",
    "serde": "1.0.0",
    "serde_bytes": "0.11.0",
    "serde_cbor": "0.11.2",
    "serde_ipld_dagcbor": "0.6.0",
}
STAND_IN_FEATURES = {"ipld-core": ["serde"], "serde": ["derive"], "serde_cbor": ["tags"]}

SECONDS_FOR_CRATES_IO = 120
# How often the work is done whose instructions are counted, and how often work is that takes few:
# the state of the heap differs by some 10,000 instructions between two processes.
TIMES = 21
FEW, TIMES_OF_FEW = 20_000, 2_001
# Memory that is freed stays with the process. Else it depends on what lies at the end of the heap
# whether a piece of work gives its pages back to the system and takes them anew, which is half of
# the time of some rows.
KEPT_MEMORY = {"MALLOC_TRIM_THRESHOLD_": str(2**30), "MALLOC_MMAP_THRESHOLD_": str(2**30)}


class Failed(Exception):
    """What went wrong, as it is told."""


def ran(words, what, **how):
    """What a command wrote. Where it fails, so does the benchmark, with the end of what it said."""
    try:
        done = subprocess.run(
            list(map(str, words)),
            stdout=subprocess.PIPE,
            stderr=subprocess.PIPE,
            text=True,
            errors="replace",
            **how,
        )
    except OSError as error:
        raise Failed(f"{what}: {error}") from error
    if done.returncode:
        said = (done.stdout + done.stderr).strip().splitlines()
        raise Failed("\n".join([f"{what} failed:", *said[-30:]]))
    return done.stdout


def toolchain():
    """The folder of the toolchain, which `rt doc` leads to."""
    return pathlib.Path(ran(["rt", "doc"], "rt doc").strip()).parent


def library():
    """The static library of the crate, proved and built where it is not yet."""
    print(
        "bench: proving and building the libraries, which takes minutes in a fresh clone",
        file=sys.stderr,
    )
    ran(["rt", "lib"], "rt lib", cwd=CRATE)
    return CRATE / "out" / f"lib{CRATE.name}.a"


class Crates:
    """Where cargo takes crates from, and which peers can be had."""

    def __init__(self, flags, had):
        self.flags = flags
        self.had = [peer for peer in PEERS if peer in had]
        self.lacking = [peer for peer in PEERS if peer not in had]
        self.versions = {}


def crates(registry, offline, config):
    """
    Where crates come from: the folder that is named, else crates.io where it answers, else what
    Debian has installed, else nowhere.
    """
    given = [word for setting in config for word in ("--config", setting)]
    if not registry and not offline and crates_io_answers(given):
        return Crates(given, list(PEERS))
    return crates_of(registry or debian(), config, given)


def crates_io_answers(given):
    """Whether cargo finds all crates by its own ways."""
    room = copied(OUT / "resolved")
    words = ["cargo", *given, "fetch", "--manifest-path", room / "Cargo.toml"]
    environment = {**os.environ, "CARGO_NET_RETRY": "0", "CARGO_HTTP_TIMEOUT": "10"}
    try:
        ran(words, "cargo fetch", env=environment, timeout=SECONDS_FOR_CRATES_IO)
    except (Failed, subprocess.TimeoutExpired):
        return False
    return True


def debian():
    """The folder of the crates that Debian's packages have installed, or None."""
    try:
        listed = ran(["dpkg", "-L", "librust-serde-dev"], "dpkg")
    except Failed:
        return None
    manifests = [pathlib.Path(line) for line in listed.splitlines() if line.endswith("/Cargo.toml")]
    return manifests[0].parent.parent if manifests else None


def crates_of(folder, config, given):
    """
    The crates of a directory source, and an empty stand-in for each that it lacks: cargo wants to
    see those too that are not built.
    """
    shutil.rmtree(REGISTRY, ignore_errors=True)
    REGISTRY.mkdir(parents=True)
    for crate in sorted(folder.iterdir()) if folder else []:
        if (crate / "Cargo.toml").is_file():
            (REGISTRY / crate.name).symlink_to(crate.resolve())
    patched = {
        setting.split(".")[2] for setting in config if setting.startswith("patch.crates-io.")
    }
    names = {re.sub(r"-\d[^-]*$", "", crate.name) for crate in REGISTRY.iterdir()} | patched
    for name, version in STAND_INS.items():
        if name not in names:
            stand_in(REGISTRY / f"{name}-{version}", name, version)
    had = {peer for peer, needs in PEERS.items() if names.issuperset(needs)}
    source = [
        "--config",
        'source.crates-io.replace-with="had"',
        "--config",
        f'source.had.directory="{REGISTRY}"',
        "--offline",
    ]
    return Crates([*source, *given], had)


def stand_in(folder, name, version):
    """A crate of this name with nothing in it."""
    features = "".join(f"{feature} = []\n" for feature in STAND_IN_FEATURES.get(name, []))
    (folder / "src").mkdir(parents=True)
    (folder / "src" / "lib.rs").write_text("")
    (folder / "Cargo.toml").write_text(
        f'[package]\nname = "{name}"\nversion = "{version}"\nedition = "2021"\n\n[features]\n{features}'
    )
    (folder / ".cargo-checksum.json").write_text('{"files": {}}')


def copied(room):
    """A copy of the harness's sources, so that no lock file of one registry meets another."""
    shutil.rmtree(room, ignore_errors=True)
    room.mkdir(parents=True)
    for name in ("Cargo.toml", "build.rs"):
        shutil.copyfile(BENCH / name, room / name)
    shutil.copytree(BENCH / "src", room / "src")
    return room


class Row:
    """A row of the table: its name, how many bytes it is about, and a number for each library."""

    def __init__(self, line):
        self.name, size, pieces, *rest = line.split("\t")
        self.pieces = int(pieces)
        # That of one piece.
        self.size = int(size) // self.pieces
        self.found = {name: float(number) for name, number in zip(rest[::2], rest[1::2])}

    @property
    def ours(self):
        return self.found[OURS]

    @property
    def best_peer(self):
        """The peer with the least, and its number, or None."""
        peers = [(number, name) for name, number in self.found.items() if name != OURS]
        return min(peers)[::-1] if peers else None

    @property
    def ratio(self):
        """Ours over the best peer's, or None."""
        return self.ours / self.best_peer[1] if self.best_peer and self.best_peer[1] else None


class Harness:
    """The built harness: compiled for speed, or in the least time."""

    def __init__(self, library, crates, is_fast):
        self.data = OUT / "data"
        self.data.mkdir(parents=True, exist_ok=True)
        data.write(self.data)
        room, profile = copied(OUT / "sources"), "release" if is_fast else "dev"
        words = [
            "cargo",
            "build",
            "--profile",
            profile,
            "--manifest-path",
            room / "Cargo.toml",
            "--target-dir",
            OUT / "target",
            *crates.flags,
        ]
        words += ["--no-default-features", "--features", ",".join(crates.had)]
        environment = {
            **os.environ,
            "BENCH_LIBRARY": str(library.resolve().parent),
            "BENCH_TOOLCHAIN_C": str(toolchain() / "c"),
        }
        ran(words, "cargo build", env=environment)
        self.program = OUT / "target" / ("release" if is_fast else "debug") / "kombilad-bench"
        crates.versions = versions(room / "Cargo.lock")

    def rows(self, *words, below=()):
        """The rows that the harness writes, run below another program."""
        said = ran(
            [*below, self.program, self.data, *words],
            "the harness",
            env={**os.environ, **KEPT_MEMORY},
        )
        return [Row(line) for line in said.splitlines()]

    def once(self, name):
        """What each library finds."""
        return self.rows("found", 1, name)

    def times(self, rounds, name):
        """The nanoseconds of one piece of work."""
        return self.rows("time", rounds, name)

    def instructions(self, name):
        """
        The instructions of one piece of work: those of so many times less those of one, shared out.
        The first times make the heap ready.
        """
        rows = self.once(name)
        self.count(rows, TIMES, name)
        for row in rows:
            if min(row.found.values()) * row.pieces < FEW:
                self.count([row], TIMES_OF_FEW, row.name)
        return rows

    def count(self, rows, times, name):
        """
        Has each library in these rows, all those with the name, what it finds in one piece of work
        of so many times.
        """
        one, many = self.counted(1, name), self.counted(times, name)
        for row in rows:
            for library in row.found:
                row.found[library] = (next(many) - next(one)) / (times - 1) / row.pieces

    def counted(self, times, name):
        """
        The instructions of each library in each row, by callgrind: it writes a file before and one
        after each, numbered from 1.
        """
        with tempfile.TemporaryDirectory() as folder:
            marks = [f"--dump-{when}=bench_measured" for when in ("before", "after")]
            valgrind = [
                "valgrind",
                "--tool=callgrind",
                f"--callgrind-out-file={folder}/counted",
                *marks,
            ]
            self.rows("found", times, name, below=valgrind)
            found = {
                int(file.suffix[1:]): file.read_text()
                for file in pathlib.Path(folder).iterdir()
                if file.suffix
            }
        totals = (
            re.search(r"^totals: (\d+)", found[number], re.M)
            for number in sorted(found)
            if number % 2 == 0
        )
        return iter([int(total.group(1)) for total in totals])


def versions(lock):
    """The versions of the peers' crates, as cargo chose them."""
    found = {}
    for package in lock.read_text(encoding="utf-8").split("[[package]]"):
        named = dict(re.findall(r'^(name|version) = "(.*)"$', package, re.M))
        if named.get("name") in STAND_INS:
            found.setdefault(named["name"], set()).add(named["version"])
    return {name: " and ".join(sorted(all_of)) for name, all_of in found.items()}
