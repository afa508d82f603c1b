"""Proves and builds a crate and all crates below it, lowest first, and prints a line for each.

usage: ./prove NAME

NAME is a crate of crates.txt, for example `ipld_links`, `ipld` or `kombilad_c`. A library is left
in crates/NAME/out/rlib, a static library as crates/NAME/out/libNAME.a, and a program as
crates/NAME/out/NAME; a program is then run on its stored input. What is proved already and hasn't
changed takes seconds. The status is 0 if all is proved, otherwise 1, after what the prover printed
last.
"""

import os
import subprocess
import sys
import tempfile
import time

sys.dont_write_bytecode = True
from built import CRATES, NotBuilt, built, stands_on  # noqa: E402

# How much of the prover's output is shown if a proof fails, in characters.
SHOWN = 6000


class NotProved(Exception):
    """A crate is not proved, or its program does not write what it should."""


def lowest_first(crate):
    """Returns the crate and the crates below it, each after those that it stands on."""
    named, order = stands_on(), []

    def visit(name):
        for below in named[name]:
            if below in named and below not in order:
                visit(below)
        order.append(name)

    visit(crate)
    return order


def stored(crate, name):
    """Returns the bytes of a file beside a program's sources, or nothing."""
    path = CRATES / crate / name
    return path.read_bytes() if path.is_file() else b""


def is_built(crate):
    """
    Returns whether a program is there and newer than all sources. `rt ci` leaves it too, but not
    the libraries in the way that `rt lib` knows.
    """
    try:
        return bool(built(crate, crate))
    except NotBuilt:
        return False


def prove_one(crate):
    """
    Proves and builds one crate, over crates that are built. Of a program it also compares the
    stored run.
    """
    is_program = (CRATES / crate / "src" / "main.rt").is_file()
    words = ["rt", "lib"]
    if is_program:
        words = [
            "rt",
            "run",
            *(
                ["--", *stored(crate, "args").decode().splitlines()]
                if stored(crate, "args")
                else []
            ),
        ]
    with tempfile.TemporaryFile() as given, tempfile.TemporaryFile() as said:
        given.write(stored(crate, "stdin"))
        given.seek(0)
        out = (
            {"stdout": subprocess.PIPE, "stderr": said}
            if is_program
            else {"stdout": said, "stderr": subprocess.STDOUT}
        )
        ran = subprocess.run(words, cwd=CRATES / crate, stdin=given, **out)
        said.seek(0)
        if ran.returncode:
            raise NotProved(
                said.read().decode(errors="replace")[-SHOWN:]
                + f"prove: {crate} is not proved, see above; to work on it: cd crates/{crate} && rt check"
            )
        if (
            is_program
            and (CRATES / crate / "stdout").is_file()
            and ran.stdout != stored(crate, "stdout")
        ):
            raise NotProved(
                f"prove: {crate} is proved, but its stored run does not write what crates/{crate}/stdout has"
            )


def prove(crate):
    """
    Proves and builds a crate and those below it, with a line for each on standard output. Raises
    `NotProved`.
    """
    order = lowest_first(crate)
    for number, name in enumerate(order, 1):
        print(f"{number} of {len(order)} {name}", end="", flush=True)
        begin = time.monotonic()
        try:
            prove_one(name)
        except (NotProved, KeyboardInterrupt):
            print(flush=True)
            raise
        print(f", {time.monotonic() - begin:.0f} s", flush=True)


def result(crate):
    """Returns the path of what a proved crate became, below the top."""
    out = CRATES / crate / "out"
    made = next(
        (
            it
            for it in (out / crate, out / f"lib{crate}.a", out / "rlib" / f"{crate}.rlib")
            if it.exists()
        ),
        out,
    )
    return made.relative_to(CRATES.parent)


def main():
    if len(sys.argv) != 2 or sys.argv[1].startswith("-"):
        sys.exit(__doc__)
    crate = sys.argv[1]
    if crate not in stands_on():
        sys.exit(f"prove: there is no crate {crate}; the crates are {' '.join(stands_on())}")
    if is_built(crate):
        print(f"nothing has changed since {crate} was proved: {result(crate)}")
        return
    print(
        f"proving {crate} and the {len(lowest_first(crate)) - 1} crates below it by {os.cpu_count()} jobs, a line for each when it is done",
        flush=True,
    )
    try:
        prove(crate)
    except NotProved as wrong:
        sys.exit(str(wrong))
    except KeyboardInterrupt:
        sys.exit("prove: stopped; the crates that are done stay proved")
    print(f"proved: {result(crate)}")


if __name__ == "__main__":
    main()
