"""Tests the repository.

usage: ./test [--without PART]..
       ./test --all [--install] [--without PART]..

./test needs only Python and the kit, and takes minutes. It proves nothing: it builds the programs
and the tests without proofs, optimized and with checks for overflow and bounds, and runs

    pages      what the pages say is compared with the sources, the drawing and the kit
    tests      each program is run on its stored input and has to write what is stored, where each
               row of crates/test_rows counts; and each #[test] function

./test --all first looks for every tool that any part needs, and ends with a list if one is missing;
--install installs Debian's packages of them, as root or by sudo, and if the variable CI is `true`
that is done without the word. Then it runs

    pages      as above
    format     how the sources are laid out, and what the linters of their languages say of them
    proofs     rt ci: each proof, test, row and stored run, by both compilers, and each edit in
               crates/*/must-fail. What an earlier run proved on this machine is kept beside the kit
    mutants    the prover has to reject each wrong body in crates/*/mutants
    programs   the programs `ipld` and `ipld_links` by all their words, each allocation failing in
               turn, calls of `ipld!` that must not compile, a repository made by ./use-in, and the
               man page and the completions of `ipld`
    bindings   the packages for C, Rust, Python and JavaScript
    bench      each row of the benchmark once
    readme     the commands of README.md in a bare root

--without PART leaves a part out. The last line is `N passed, N failed, N skipped`, with the names
of the parts that were skipped. The status is 0 if nothing failed, otherwise 1.
"""

import argparse
import collections
import concurrent.futures
import dataclasses
import os
import pathlib
import re
import resource
import subprocess
import sys
import tempfile
import time

sys.dont_write_bytecode = True
import needs  # noqa: E402
from built import CRATES, NotBuilt, built, libraries, stands_on  # noqa: E402
from quick import ONCE, build  # noqa: E402

TOP = CRATES.parent
ROWS = "test_rows"
QUICK_PARTS = ("pages", "tests")
ALL_PARTS = ("pages", "format", "proofs", "mutants", "programs", "bindings", "bench", "readme")
PAGES = (
    [".ci/versions"],
    [".ci/definitions"],
    [".ci/guarantees"],
    [".ci/memory"],
    ["./doc"],
    [".ci/snippets"],
    [".ci/needs", "--check"],
    ["docs/drawing/draw", "--check"],
    ["bench/chart.py", "--check"],
)
# What a test or a program may take, in seconds, as `rt ci` has it.
SECONDS_FOR_A_TEST, SECONDS_FOR_A_PROGRAM = 60, 120
# How much of a failed `rt ci` is shown, in lines.
LINES_SHOWN = 300
# What `rt ci` says of an edit of must-fail/ that shows nothing of a contract. It lets both pass.
SHOWS_NOTHING = re.compile(r": BAD EDIT: |: refused, .* \(only because a proof file names ")
# What a build or a crate's proof may need, in bytes.
MEMORY_OF_A_BUILD, MEMORY_OF_A_PROOF = 2_500_000_000, 5_000_000_000
# What a stored run may reserve: a row whose input announces more than it has must not reserve that.
MEMORY_OF_A_RUN = 2_000_000_000


@dataclasses.dataclass
class Result:
    """How many cases of a part passed, and what is wrong with each of the others."""

    passed: int = 0
    failed: list = dataclasses.field(default_factory=list)

    def add(self, other):
        self.passed += other.passed
        self.failed += other.failed


def say(text):
    print(text, flush=True)


def processors_for(memory):
    """
    Returns how many jobs of so many bytes run at once: as many as there are processors, and free
    memory for.
    """
    available = re.search(
        r"^MemAvailable:\s*(\d+)", pathlib.Path("/proc/meminfo").read_text(), re.M
    )
    room = int(available[1]) * 1024 // memory if available else 1
    return max(1, min(len(os.sched_getaffinity(0)), room))


# ---- Commands


def command(words, environment=None, shown=None):
    """
    Runs a command of the repository, which counts as one case. What it prints is shown as it comes,
    or written to the file `shown`.
    """
    if shown is None:
        say(f"-- {' '.join(words)}")
    try:
        ran = subprocess.run(
            [TOP / words[0] if "/" in words[0] else words[0], *words[1:]],
            cwd=TOP,
            env={**os.environ, **(environment or {})},
            stdout=shown,
            stderr=shown and subprocess.STDOUT,
        )
    except OSError as wrong:
        return Result(failed=[f"{words[0]}: {wrong.strerror}"])
    return (
        Result(1)
        if ran.returncode == 0
        else Result(failed=[f"{' '.join(words)}: status {ran.returncode}"])
    )


def in_one_piece(words, environment):
    """Runs a command, and then shows what it printed."""
    with tempfile.TemporaryFile() as shown:
        result = command(words, environment, shown)
        shown.seek(0)
        say(f"-- {' '.join(words)}\n{shown.read().decode(errors='replace')}".rstrip("\n"))
    return result


def side_by_side(*each, environment=None):
    """Runs commands, as many at once as there are processors, all of them also if one fails."""
    result = Result()
    with concurrent.futures.ThreadPoolExecutor(len(os.sched_getaffinity(0))) as pool:
        for one in pool.map(lambda words: in_one_piece(words, environment), each):
            result.add(one)
    return result


def commands(*each):
    """Runs commands one after the other, all of them also if one fails."""
    result = Result()
    for words in each:
        result.add(command(words))
    return result


# ---- Stored runs and tests, without proofs


def stored(crate, name):
    path = CRATES / crate / name
    return path.read_bytes() if path.is_file() else b""


def programs():
    """Returns the crates that have a program with a stored run."""
    return [
        name
        for name in stands_on()
        if (CRATES / name / "src" / "main.rt").is_file() and (CRATES / name / "stdout").is_file()
    ]


def crates_with_tests():
    return [
        name
        for name in stands_on()
        if any(
            "#[test]" in it.read_text(encoding="utf-8")
            for it in (CRATES / name / "src").rglob("*.rt")
        )
    ]


def run_of(crate, program):
    """
    Runs a program on its stored input, in little memory. Of the program of rows each row is a case.
    """
    words = [program, *stored(crate, "args").decode().splitlines()]
    try:
        with tempfile.TemporaryDirectory() as folder:
            ran = subprocess.run(
                words,
                cwd=folder,
                input=stored(crate, "stdin"),
                stdout=subprocess.PIPE,
                stderr=subprocess.PIPE,
                timeout=SECONDS_FOR_A_PROGRAM,
                preexec_fn=lambda: resource.setrlimit(
                    resource.RLIMIT_AS, (MEMORY_OF_A_RUN, MEMORY_OF_A_RUN)
                ),
            )
    except subprocess.TimeoutExpired:
        return Result(failed=[f"{crate}: had not ended after {SECONDS_FOR_A_PROGRAM} seconds"])
    status = int(stored(crate, "status") or 0)
    if ran.returncode != status:
        return Result(
            failed=[
                f"{crate}: status {ran.returncode}, and not {status}: {ran.stderr.decode(errors='replace')[-500:].strip()}"
            ]
        )
    wanted = stored(crate, "stdout")
    if crate != ROWS:
        return (
            Result(1)
            if ran.stdout == wanted
            else Result(failed=[f"{crate}: does not write what crates/{crate}/stdout has"])
        )
    lines, those = ran.stdout.splitlines(), wanted.splitlines()
    wrong = [
        f"{crate}: row {at}: {line[:200]!r}, and not {it[:200]!r}"
        for at, (line, it) in enumerate(zip(lines, those), 1)
        if line != it
    ]
    if len(lines) != len(those):
        wrong.append(f"{crate}: {len(lines)} lines, and not {len(those)}")
    return Result(len(those) - len(wrong), wrong)


def tests_of(crate, program):
    """Runs each test of a crate by itself."""
    listed = subprocess.run(
        [program, "--list"], stdout=subprocess.PIPE, text=True, check=True
    ).stdout
    result = Result()
    with tempfile.TemporaryDirectory() as folder:
        for name in re.findall(r"^(\S+): test$", listed, re.M):
            try:
                ran = subprocess.run(
                    [program, name],
                    cwd=folder,
                    stdin=subprocess.DEVNULL,
                    stdout=subprocess.PIPE,
                    stderr=subprocess.STDOUT,
                    timeout=SECONDS_FOR_A_TEST,
                )
                wrong = (
                    f"status {ran.returncode}: {ran.stdout.decode(errors='replace')[-500:].strip()}"
                    if ran.returncode
                    else ""
                )
            except subprocess.TimeoutExpired:
                wrong = f"had not ended after {SECONDS_FOR_A_TEST} seconds"
            result.add(Result(failed=[f"{crate}: {name}: {wrong}"]) if wrong else Result(1))
    if not result.passed and not result.failed:
        result.failed.append(f"{crate}: has no test")
    return result


def built_and_run(crate, kind):
    begin = time.monotonic()
    try:
        program = build(crate, kind, CRATES / crate / "out" / "unproved" / "once", ONCE)
    except (NotBuilt, OSError) as wrong:
        return Result(failed=[str(wrong)])
    after = time.monotonic()
    result = tests_of(crate, program) if kind == "test" else run_of(crate, program)
    say(
        f"   {crate}: {result.passed} passed, {len(result.failed)} failed, built in {after - begin:.0f} s and run in {time.monotonic() - after:.0f} s"
    )
    return result


def size_of_sources(crate):
    """Returns how many bytes of source a build of the crate compiles."""
    return sum(
        path.stat().st_size
        for name in [crate, *libraries(crate)]
        for path in (CRATES / name / "src").rglob("*.rt")
    )


def unproved():
    """
    Builds the programs and the tests without proofs, as many at once as there are processors, and
    runs them.
    """
    builds = [(it, "program") for it in programs()] + [(it, "test") for it in crates_with_tests()]
    # The largest first, since the last to end is waited for.
    builds.sort(key=lambda it: -size_of_sources(it[0]))
    say(f"-- building without proofs, and running: {', '.join(crate for crate, _ in builds)}")
    result = Result()
    with concurrent.futures.ThreadPoolExecutor(processors_for(MEMORY_OF_A_BUILD)) as pool:
        for each in pool.map(lambda it: built_and_run(*it), builds):
            result.add(each)
    return result


# ---- The parts


def pages():
    return commands(*PAGES)


def proofs():
    """
    Runs `rt ci`, one job a crate: more jobs for one crate take half as many core seconds again. An
    edit of must-fail/ that can't be applied or compiled fails here, and so does one that is
    rejected only for a name in a proof file.
    """
    say("-- rt ci")
    environment = {**os.environ, "RT_JOBS": str(processors_for(MEMORY_OF_A_PROOF))}
    said, failed = collections.deque(maxlen=LINES_SHOWN), []
    with subprocess.Popen(
        ["rt", "ci"], cwd=TOP, env=environment, stdout=subprocess.PIPE, text=True, errors="replace"
    ) as running:
        for line in running.stdout:
            said.append(line)
            if SHOWS_NOTHING.search(line):
                failed.append(line.strip())
            # There are many thousands of lines, of single goals and modules.
            if line.startswith("rt: ") and "warning: " not in line:
                print(line, end="", flush=True)
    counts = re.fullmatch(r"(\d+) passed, (\d+) failed\n", said[-1]) if said else None
    if counts and not running.returncode:
        return Result(int(counts[1]), failed)
    print("".join(said), end="", flush=True)
    failed.append(f"rt ci: status {running.returncode}: its last lines are above")
    return Result(int(counts[1]) if counts else 0, failed)


def mutants():
    return commands([".ci/mutants", "--self-test", "dag_pb"], [".ci/mutants"])


def rows_in_little_memory():
    """Runs the rows once more: `rt ci` doesn't limit what a program may reserve."""
    say(f"-- {ROWS} in {MEMORY_OF_A_RUN // 10**6} MB")
    try:
        result = run_of(ROWS, built(ROWS, ROWS))
    except NotBuilt as wrong:
        return Result(failed=[str(wrong)])
    return Result(failed=result.failed) if result.failed else Result(1)


def the_programs():
    result = rows_in_little_memory()
    result.add(
        side_by_side(
            [".ci/use-in"],
            [".ci/ipld-runs"],
            [".ci/program-runs"],
            [".ci/failed-allocations"],
            [".ci/no-compile"],
            [".ci/manual", "--check"],
            [
                "python3",
                "-m",
                "unittest",
                "tests.manual.test_page",
                "tests.manual.test_completions",
            ],
        )
    )
    return result


def bindings():
    """
    Runs the tests of the packages next to those of the C files, since each has one process most of
    the time. Both take the C file of the proved library, which is made first.
    """
    made = "bindings/out/made"
    result = command(["bindings/portable/make.py", made, "kombilad"])
    if not result.failed:
        scripts = (["bindings/test.sh"], ["bindings/portable/test.sh"])
        result.add(side_by_side(*scripts, environment={"DIST": made}))
    return result


PARTS = {
    "pages": pages,
    "tests": unproved,
    "format": lambda: commands([".ci/format"]),
    "proofs": proofs,
    "mutants": mutants,
    "programs": the_programs,
    "bindings": bindings,
    "bench": lambda: commands([".ci/bench"]),
    "readme": lambda: commands([".ci/readme"]),
}


def used():
    """Returns the core seconds that this and its ended processes have used."""
    return sum(
        it.ru_utime + it.ru_stime
        for it in map(resource.getrusage, (resource.RUSAGE_SELF, resource.RUSAGE_CHILDREN))
    )


def run(parts, skipped):
    """Runs parts, with a line for each at the end. Returns whether nothing failed."""
    total, report, broken = Result(), [], ""
    begin_of_all, used_before_all = time.monotonic(), used()
    for part in parts:
        if broken:
            skipped[part] = broken
            continue
        say(f"== {part}")
        begin, before = time.monotonic(), used()
        result = PARTS[part]()
        report.append(
            f"{part}: {result.passed} passed, {len(result.failed)} failed, {time.monotonic() - begin:.0f} s, {used() - before:.0f} core seconds"
        )
        total.add(result)
        if part == "proofs" and result.failed:
            broken = "the proofs failed"
    say("== all parts")
    for line in report:
        say(line)
    say(
        f"in all {time.monotonic() - begin_of_all:.0f} s, {used() - used_before_all:.0f} core seconds"
    )
    for part, why in skipped.items():
        say(f"{part}: not run: {why}")
    for wrong in total.failed:
        say(f"FAILED: {wrong}")
    say(
        f"{total.passed} passed, {len(total.failed)} failed, {len(skipped)} skipped{': ' * bool(skipped)}{', '.join(skipped)}"
    )
    # Where a part was to run and could not, that is a failure.
    return not total.failed and not broken


def main():
    parser = argparse.ArgumentParser(
        prog="test",
        description=__doc__,
        formatter_class=argparse.RawDescriptionHelpFormatter,
        usage=argparse.SUPPRESS,
    )
    parser.add_argument("--all", action="store_true", help=argparse.SUPPRESS)
    parser.add_argument("--install", action="store_true", help=argparse.SUPPRESS)
    parser.add_argument(
        "--without", action="append", default=[], metavar="PART", help=argparse.SUPPRESS
    )
    given, others = parser.parse_known_args()
    if others:
        sys.exit(f"test: there is no option {others[0]}; ./test --help lists them")
    parts = ALL_PARTS if given.all else QUICK_PARTS
    unknown = [it for it in given.without if it not in parts]
    if unknown:
        sys.exit(f"test: there is no part {unknown[0]}; the parts are {', '.join(parts)}")
    if given.install and not given.all:
        sys.exit("test: --install goes with --all; ./test needs only Python and the kit")
    skipped = {it: "left out by --without" for it in parts if it in given.without}
    parts = [it for it in parts if it not in skipped]
    if given.all:
        if not needs.ready(
            ", ".join(parts), lambda: needs.missing(parts), given.install or needs.in_ci()
        ):
            sys.exit(1)
    else:
        skipped.update({it: "./test --all runs it" for it in ALL_PARTS[1:]})
    sys.exit(0 if run(parts, skipped) else 1)


if __name__ == "__main__":
    try:
        main()
    except KeyboardInterrupt:
        sys.exit("test: stopped")
