#!/usr/bin/env python3
"""Compares the speed of kombilad.c, compiled by gcc and clang, with the library for x86-64: each
call on the data of bench/, CARs and texts of CIDs, in turns in one run.

usage: portable.py FOLDER LIBRARY.so [COMPILER..]

FOLDER has kombilad.c and kombilad.h, and LIBRARY.so is what bindings/build.sh made, such as
bindings/out/libkombilad.so.0. The compilers are those of bindings/portable/compilers.py; without a
name they are `gcc -O2` and `clang -O2`. The last lines are the median and the range of the ratios.
"""

import pathlib
import statistics
import subprocess
import sys
import tempfile

sys.dont_write_bytecode = True
HERE = pathlib.Path(__file__).resolve().parent
for place in (HERE.parent.parent / "bench", HERE.parent / "portable"):
    sys.path.insert(0, str(place))
import data  # noqa: E402
from compilers import COMPILERS, command  # noqa: E402

USUAL = ("gcc -O2", "clang -O2")


def run(*words):
    """Returns what a command writes."""
    done = subprocess.run(list(map(str, words)), stdout=subprocess.PIPE, text=True)
    if done.returncode:
        sys.exit(f"portable.py: {words[0]} failed: status {done.returncode}")
    return done.stdout


def built(made, names, folder):
    """Returns the path of the measuring program, and that of a shared library by each compiler."""
    libraries = []
    for at, name in enumerate(names):
        libraries.append(folder / f"{at}.so")
        run(*command(name), "-shared", "-fPIC", made / "kombilad.c", "-o", libraries[-1])
    program = folder / "portable"
    run("cc", "-std=gnu11", "-O2", f"-I{made}", HERE / "portable.c", "-ldl", "-o", program)
    return program, libraries


def main():
    words = sys.argv[1:]
    names = words[2:] or USUAL
    unknown = [it for it in names if it not in COMPILERS]
    if len(words) < 2 or words[0].startswith("-") or unknown:
        sys.exit(__doc__ + f"\nThere is no compiler {unknown[0]}." if unknown else __doc__)
    made, native = pathlib.Path(words[0]).resolve(), pathlib.Path(words[1]).resolve()
    with tempfile.TemporaryDirectory() as folder:
        folder = pathlib.Path(folder)
        data.write(folder)
        program, libraries = built(made, names, folder)
        listed = run(program, folder, native, *libraries).splitlines()
    print("| call | data | native, ns |", *(f"{it}, ns | ratio |" for it in names))
    print("|---|---|---|" + "---|---|" * len(names))
    ratios = {name: [] for name in names}
    for line in listed:
        call, what, *times = line.split("\t")
        first, *others = map(float, times)
        cells = []
        for name, took in zip(names, others):
            ratios[name].append(took / first)
            cells.append(f"{took:,.0f} | {took / first:.2f} |")
        print(f"| `{call}` | {what} | {first:,.0f} |", *cells)
    print()
    for name, found in ratios.items():
        print(
            f"{name}: median {statistics.median(found):.2f},"
            f" from {min(found):.2f} to {max(found):.2f}, {len(found)} rows"
        )


if __name__ == "__main__":
    main()
