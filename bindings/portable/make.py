#!/usr/bin/env python3
"""Makes C files of the library and of the programs.

usage: make.py [--unproved] FOLDER [NAME..]    writes the files into a folder
       make.py --compare FOLDER [NAME..]       compares those in dist/ with those in a folder
       make.py --of-dist FOLDER [NAME..]       copies those in dist/ that are of the sources as they
                                               are, and makes the others without proofs

A NAME is `kombilad`, for kombilad.c and kombilad.h, or a program, `ipld` or `ipld_links`, for its C
file and posix.c. Without a NAME all are made.

1. `rattle` proves a crate, and passes an LLVM module to its compiler. modules.py keeps the module.
   With --unproved .ci/quick.py makes a module from the same sources, without their proofs.
2. The kit's clang optimizes it, with -O2.
3. ir2c.py translates it to C.

If FOLDER is dist/ at the top, bindings/go gets copies of kombilad.c and kombilad.h.

The head of each file states a digest of its sources, and its toolchain. --compare ends with status
1 if a file in dist/ states the current ones, but differs from that in FOLDER. If the sources
changed since, it only prints the number of commits.
"""

import hashlib
import pathlib
import re
import shutil
import subprocess
import sys

sys.dont_write_bytecode = True
HERE = pathlib.Path(__file__).resolve().parent
TOP = HERE.parent.parent
sys.path.insert(0, str(HERE))
import ir2c  # noqa: E402
import modules  # noqa: E402
from built import CRATES, NotBuilt, libraries, stands_on, told  # noqa: E402
from ir import Unknown  # noqa: E402

LIBRARY = "kombilad"
PROGRAMS = ("ipld", "ipld_links")
HEADER = HERE.parent / "c" / "kombilad.h"
DIST = TOP / "dist"
OPTIONS = {"--unproved", "--compare", "--of-dist"}
# Copies of files in dist/, which the Go package needs in its own folder.
COPIES = {TOP / "bindings" / "go" / it: DIST / it for it in ("kombilad.c", "kombilad.h")}
# The files that translate a module, without those that test them.
TRANSLATOR = [
    HERE / f"{it}"
    for it in "make.py modules.py ir2c.py tokens.py reading.py ir.py values.py instructions.py"
    " pointers.py functions.py prelude.py prelude.c wrappers.py features.ll".split()
]


def crate_of(name):
    return modules.LIBRARY if name == LIBRARY else name


def sources(name):
    """Returns the files from which a C file is made."""
    crate = crate_of(name)
    found = [TOP / "VERSION", *TRANSLATOR]
    found += [HEADER if name == LIBRARY else HERE / "posix.c"]
    for it in (crate, *libraries(crate)):
        found += sorted((CRATES / it / "src").rglob("*.rt"))
    return found


def digest_of(name):
    """Returns the digest of the sources of a name, and of what its crates stand on."""
    digest = hashlib.sha256()
    crate = crate_of(name)
    for it in (crate, *libraries(crate)):
        digest.update(f"{it}: {' '.join(stands_on()[it])}\n".encode())
    for path in sources(name):
        text = path.read_bytes()
        digest.update(f"{path.relative_to(TOP)} {len(text)}\n".encode() + text)
    return digest.hexdigest()


def git(*words):
    """Returns the output of git, or None if git is missing or fails."""
    words = ["git", "-C", str(TOP), *words]
    try:
        done = subprocess.run(words, stdout=subprocess.PIPE, stderr=subprocess.DEVNULL, text=True)
    except OSError:
        return None
    return None if done.returncode else done.stdout.strip()


def facts(name):
    """Returns the lines in the head of a file that state how it was made."""
    named = [str(it.relative_to(TOP)) for it in sources(name)]
    commit = git("log", "-1", "--format=%H", "--", *named) or "none, made outside of a repository"
    changes = git("status", "--porcelain", "--", *named)
    return [
        f"Version:   {(TOP / 'VERSION').read_text(encoding='utf-8').strip()}",
        f"Commit:    {commit}" + (", and changes after it" if changes else ""),
        f"Sources:   {digest_of(name)}",
        f"Toolchain: {told(['rt', 'version'], TOP, 'rt version').strip()}",
    ]


def make(folder, name, is_proved):
    """Writes the files of a name into a folder."""
    module = modules.optimized(crate_of(name), is_proved)
    if name == LIBRARY:
        ir2c.write(module, folder, facts(name), is_proved, header=HEADER)
    else:
        ir2c.write(module, folder, facts(name), is_proved, program=name)
        shutil.copyfile(HERE / "posix.c", folder / "posix.c")
    for copy, source in COPIES.items():
        if name == LIBRARY and source.parent == folder and copy.parent.is_dir():
            shutil.copyfile(source, copy)


def files_of(name):
    """Returns the names of the files that are made for a name."""
    return [f"{name}.c", f"{name}.h" if name == LIBRARY else "posix.c"]


def copy_or_make(folder, name):
    """
    Copies the files of a name from dist/ if they were made from the current sources. Otherwise
    makes them without proofs.
    """
    made = DIST / f"{name}.c"
    is_there = made.is_file() and fact(made.read_text(encoding="utf-8"), "Sources")
    if is_there != digest_of(name):
        make(folder, name, False)
        return
    for file in files_of(name):
        shutil.copyfile(DIST / file, folder / file)


# ---- Comparing


def fact(text, name):
    """Returns the fact with this name in the head of a file, or None."""
    found = re.search(rf"^ \* {name}: +(.*)$", text, re.M)
    return found[1] if found else None


def without_commit(text):
    """Returns a file without its commit, which a clone without history doesn't know."""
    return re.sub(r"^ \* Commit: .*\n", "", text, count=1, flags=re.M)


def commits_since(commit, name):
    """Returns in words the number of commits since one that changed the sources."""
    named = [str(it.relative_to(TOP)) for it in sources(name)]
    count = commit and git("rev-list", "--count", f"{commit}..HEAD", "--", *named)
    return f"{count} commits" if count else "commits that this clone doesn't have"


def compare(folder, name):
    """Compares the files of a name in dist/. Returns the errors, and prints the state of each
    file."""
    file = f"{name}.c"
    committed, made = DIST / file, (folder / file).read_text(encoding="utf-8")
    if not committed.is_file():
        print(f"make.py: dist/{file} is not there yet: nothing is compared")
        return []
    text = committed.read_text(encoding="utf-8")
    if fact(text, "Sources") != fact(made, "Sources"):
        since = commits_since((fact(text, "Commit") or "").partition(",")[0], name)
        print(f"make.py: dist/{file} is older than its sources, by {since}")
        return []
    if fact(text, "Toolchain") != fact(made, "Toolchain"):
        print(f"make.py: dist/{file} was made by another toolchain: nothing is compared")
        return []
    if without_commit(text) != without_commit(made):
        return [
            f"dist/{file} differs from what its sources give: run bindings/portable/make.py dist"
        ]
    print(f"make.py: dist/{file} is what its sources give")
    others = [DIST / "kombilad.h", *COPIES] if name == LIBRARY else [DIST / "posix.c"]
    wrong = []
    for other in others:
        path = other.relative_to(TOP)
        if not other.is_file():
            print(f"make.py: {path} is not there yet: it is not compared")
        elif other in COPIES and other.read_bytes() != COPIES[other].read_bytes():
            wrong.append(f"{path} is no copy of that in dist/: run bindings/portable/make.py dist")
        elif other not in COPIES and other.read_bytes() != (folder / other.name).read_bytes():
            wrong.append(
                f"{path} differs from what its sources give: run bindings/portable/make.py dist"
            )
    return wrong


def main():
    words = sys.argv[1:]
    options = [it for it in words if it.startswith("-")]
    folder, *names = [it for it in words if it not in options] or [None]
    names = names or [LIBRARY, *PROGRAMS]
    unknown = set(names) - {LIBRARY, *PROGRAMS}
    if folder is None or unknown or len(options) > 1 or not OPTIONS.issuperset(options):
        sys.exit(__doc__)
    folder = pathlib.Path(folder).resolve()
    wrong = []
    try:
        for name in names:
            if options == ["--compare"]:
                wrong += compare(folder, name)
                continue
            if options == ["--of-dist"]:
                copy_or_make(folder, name)
            else:
                make(folder, name, not options)
            print(folder / f"{name}.c", flush=True)
    except Unknown as what:
        wrong.append(f"not known: {what}")
    except (NotBuilt, OSError) as what:
        wrong.append(str(what))
    for it in wrong:
        print(f"make.py: {it}", file=sys.stderr)
    return 1 if wrong else 0


if __name__ == "__main__":
    sys.exit(main())
