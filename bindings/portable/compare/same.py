#!/usr/bin/env python3
"""Runs the same cases through the static library for x86-64 and through kombilad.c, and compares
every outcome.

usage: same.py FOLDER LIBRARY.a [--cases COUNT [SEED]] [COMPILER..]

FOLDER has the files from make.py, and LIBRARY.a is the static library of the same module. COUNT is
the number of random cases of each kind. An outcome has the status, numbers, offsets, all bytes of
buffers, and the number of allocations. A call must not leave an allocated block. Each case also
runs with each allocation refused. The compilers are those of compilers.py that are installed, or
those that are named.
"""

import pathlib
import resource
import shutil
import subprocess
import sys
import tempfile
import time

sys.dont_write_bytecode = True
HERE = pathlib.Path(__file__).resolve().parent
sys.path.insert(0, str(HERE.parent))
from cases import CALLS  # noqa: E402
from compilers import COMPILERS, command  # noqa: E402

C = HERE.parent.parent / "c"
# On these processors constant records are copied, which takes one more allocation.
BIG_ENDIAN = ("s390x",)
# The stack for the cases in KiB. Some of them nest 1,000,000 lists.
STACK = {"gcc -O0": 256, "gcc -O2": 128, "clang -O2": 128}


class Failed(Exception):
    pass


def run(words, **more):
    """Returns the output of a command."""
    done = subprocess.run(
        list(map(str, words)), stdout=subprocess.PIPE, stderr=subprocess.PIPE, text=True, **more
    )
    if done.returncode:
        said = (done.stdout[-1000:] + done.stderr)[-3000:]
        raise Failed(f"{' '.join(map(str, words))}: {done.returncode}\n{said}")
    return done.stdout, done.stderr


def limited(name):
    """Returns a function that sets the limit of the stack in the process of the cases, or None."""
    if name not in STACK:
        return None
    size = STACK[name] << 10
    return lambda: resource.setrlimit(resource.RLIMIT_STACK, (size, size))


def native(folder, library):
    """Builds the cases' program over the static library."""
    counted = ["-include", HERE / "counted.h"]
    alloc, program = folder / "alloc.o", folder / "native"
    run(["gcc", "-O2", "-c", *counted, "-DCOUNT_ALL", C / "alloc.c", "-o", alloc])
    run(["gcc", "-O2", f"-I{C}", HERE / "drive.c", alloc, library, "-o", program])
    return program


def portable(folder, made, name):
    """Builds the cases' program over kombilad.c. Returns it, the warnings, and the seconds that the
    compiler took for kombilad.c."""
    program, code = folder / "portable", folder / "kombilad.o"
    words = command(name)
    counted = ["-include", HERE / "counted.h"]
    begun = time.monotonic()
    _, warnings = run([*words, *counted, "-c", made / "kombilad.c", "-o", code])
    took = time.monotonic() - begun
    copies = ["-DENCODE_COPIES"] if name in BIG_ENDIAN else []
    _, more = run([*words, *copies, f"-I{made}", HERE / "drive.c", code, "-o", program])
    return program, warnings + more, took


def without_refusals(outcomes):
    """Returns the outcomes without those of `encode` with a refused allocation."""
    call = str(CALLS.index("encode"))
    return [it for it in outcomes if it.split()[1] != call or it.split()[2] != "refused"]


def differences(expected, found):
    """Returns the number of outcomes that differ, and lines with the first of them."""
    pairs = list(zip(expected, found))
    differ = [(old, new) for old, new in pairs if old != new]
    shown = []
    for old, new in differ[:8]:
        call = CALLS[int(old.split()[1])]
        shown.append(f"    {call}: {old} | {new}")
    return len(differ) + abs(len(expected) - len(found)), shown


def compare(name, folder, made, cases, expected):
    """Compares the outcomes of one compiler's program. Returns whether all are the same."""
    program, warnings, took = portable(folder, made, name)
    begun = time.monotonic()
    words = [*COMPILERS[name][2], program, cases]
    found = run(words, preexec_fn=limited(name))[0].splitlines()
    ran = time.monotonic() - begun
    if name in BIG_ENDIAN:
        expected, found = without_refusals(expected), without_refusals(found)
    count, shown = differences(expected, found)
    refused = sum(it.split()[2] == "refused" for it in expected)
    print(
        f"same.py: {name}: {len(expected)} outcomes, {refused} of them with a refused allocation,"
        f" {count} differ; compiled in {took:.1f} s, ran {ran:.1f} s"
    )
    for line in shown + warnings.splitlines()[:10]:
        print(line)
    return not count and not warnings


def main():
    words, count = sys.argv[1:], ["100", "1"]
    if "--cases" in words:
        at = words.index("--cases")
        numbers = [it for it in words[at + 1 : at + 3] if it.isdigit()]
        count = numbers + count[len(numbers) :]
        del words[at : at + 1 + len(numbers)]
    if len(words) < 2:
        sys.exit(__doc__)
    made, library = pathlib.Path(words[0]).resolve(), pathlib.Path(words[1]).resolve()
    failed = False
    with tempfile.TemporaryDirectory() as folder:
        folder = pathlib.Path(folder)
        cases = folder / "cases"
        run([sys.executable, HERE / "cases.py", cases, *count])
        expected = run([native(folder, library), cases])[0].splitlines()
        for name in words[2:] or COMPILERS:
            compiler, _, runner = COMPILERS[name]
            if not shutil.which(compiler) or (runner and not shutil.which(runner[0])):
                print(f"same.py: {name}: not installed")
                failed |= bool(words[2:])
                continue
            try:
                failed |= not compare(name, folder, made, cases, expected)
            except Failed as what:
                failed = True
                print(f"same.py: {name}: {what}")
            sys.stdout.flush()
    if failed:
        sys.exit(1)


if __name__ == "__main__":
    main()
