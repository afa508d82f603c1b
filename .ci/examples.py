#!/usr/bin/env python3
"""Runs the examples of the pages README.md, docs/TUTORIAL.md and docs/HOWTO.md.

usage: .ci/examples.py KIND FOLDER

An example is an ```sh block after a line `<!-- KIND: example -->`. One `sh -e` runs all examples of
a page and a kind in order, in a new folder in FOLDER, in which `kombilad` is the repository, or
FOLDER/kombilad if that is there. If a ```text block follows, the commands have to print exactly its
lines, on standard output and standard error together.

    ipld        .ci/ipld-runs runs them, with the program that each of the two compilers built
    rattle      .ci/use-in runs them, over what `rt ci` keeps
    bindings    bindings/test.sh runs them, with the packages for Python, JavaScript and Rust

`.ci/snippets` looks for blocks that nothing runs. The status is 0 if all print what the pages show,
and otherwise 1.
"""

import dataclasses
import os
import pathlib
import re
import secrets
import subprocess
import sys
import tempfile
import typing

sys.dont_write_bytecode = True
from sources import TOP  # noqa: E402

PAGES = ("README.md", "docs/TUTORIAL.md", "docs/HOWTO.md")
KINDS = ("ipld", "rattle", "bindings")
SECONDS_FOR_A_PAGE = 1800
EXAMPLE = re.compile(
    r"^<!-- (\w+): example -->\n```sh\n(.*?)^```\n(?:\n```text\n(.*?)^```\n)?", re.M | re.S
)


@dataclasses.dataclass
class Example:
    """Commands of a page, at a line, and what they have to print, or None."""

    line: int
    kind: str
    commands: str
    printed: typing.Optional[str]


def examples(page):
    """Returns the examples of a page."""
    text = (TOP / page).read_text(encoding="utf-8")
    return [
        Example(text.count("\n", 0, found.start()) + 2, *found.groups())
        for found in EXAMPLE.finditer(text)
    ]


def not_run(names_source):
    """
    Returns what is wrong with the pages: one has no example, or of docs/ a block that neither is an
    example or its output nor is after a line that names a source.
    """
    errors = []
    for page in PAGES:
        if not examples(page):
            errors.append(f"{page} has no example")
        text = EXAMPLE.sub("", (TOP / page).read_text(encoding="utf-8"))
        lines = [line for line in text.splitlines() if line.strip()]
        inside = False
        for before, line in zip(["", *lines], lines):
            if line.startswith("```"):
                inside = not inside
                if inside and page.startswith("docs/") and not names_source.match(before):
                    errors.append(f"{page}: the block after {before!r} is not run")
    return errors


def differences(page, kind, folder, environment):
    """
    Runs the examples of a page and a kind in a folder. Yields what differs from the page: what the
    first example that differs prints, or its status.
    """
    wanted = [it for it in examples(page) if it.kind == kind]
    mark = secrets.token_hex(16)
    script = "".join(f"{it.commands}printf '%s\\n' {mark}\n" for it in wanted)
    ran = subprocess.run(
        ["sh", "-e", "-c", script],
        cwd=folder,
        env=environment,
        stdin=subprocess.DEVNULL,
        stdout=subprocess.PIPE,
        stderr=subprocess.STDOUT,
        timeout=SECONDS_FOR_A_PAGE,
    )
    *printed, rest = ran.stdout.decode(errors="replace").split(f"{mark}\n")
    for it, seen in zip(wanted, printed):
        if it.printed not in (None, seen):
            yield f"{page}:{it.line}: the example prints\n{seen}and not\n{it.printed}"
            return
    if ran.returncode or len(printed) < len(wanted):
        yield f"{page}:{wanted[len(printed)].line}: status {ran.returncode}\n{rest}"


def run(kind, folder, environment):
    """Runs the examples of a kind of all pages, and yields what differs."""
    for page in PAGES:
        if any(it.kind == kind for it in examples(page)):
            with tempfile.TemporaryDirectory(dir=folder) as name:
                there = pathlib.Path(folder) / "kombilad"
                (pathlib.Path(name) / "kombilad").symlink_to(there if there.is_dir() else TOP)
                yield from differences(page, kind, name, environment)


def main():
    if len(sys.argv) != 3 or sys.argv[1] not in KINDS:
        sys.exit(__doc__)
    seen = list(run(sys.argv[1], pathlib.Path(sys.argv[2]).resolve(), os.environ))
    for difference in seen:
        print(f"examples: {difference}")
    return 1 if seen else 0


if __name__ == "__main__":
    sys.exit(main())
