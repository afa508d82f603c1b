"""Copies the libraries into another repository, or updates them there: ./use-in REPOSITORY
[LIBRARY..]

Without a name it copies every library, else those named and the ones that they stand on. Of each it
copies `src`, `specs`, `proofs`, CALLING.md with the public clauses, and the licences to
REPOSITORY/crates/NAME; mutants and tests stay here. The file REPOSITORY/KOMBILAD notes the version,
the commit and a digest of each file. At the end it prints the lines that crates.txt has to have,
and changes no file of yours.

Run again it updates what it copied, with the libraries that it copied before, and removes what is
no longer part of them. A file that you changed, or that isn't from here, is never overwritten or
removed: where one is in the way it is named, nothing at all is written, and the status is 1.
"""

import hashlib
import os
import pathlib
import subprocess
import sys

sys.dont_write_bytecode = True
from sources import TOP, Library, caller_libraries, clauses, crate_lines  # noqa: E402

NOTE = "KOMBILAD"
HEAD = "Copied by use-in of Kombilad, whose docs/USE.md says more."
PARTS = ("src", "specs", "proofs")
# What stands over the clauses in the copy of a page.
CLAUSES = """
## Contracts

The public clauses, as `src/` has them. `old` and `new` are what a reference points to at the call
and at the return, `now` what one points to that is only read. `specs/` defines the words.

"""
LICENCES = ("LICENSE-MIT", "LICENSE-APACHE")


def digest(data):
    return hashlib.sha256(data).hexdigest()


def with_those_below(names):
    """These libraries and all that they stand on, lowest first."""
    known = {name: deps for name, _, deps in crate_lines()}
    ours, found = caller_libraries(), []

    def add(name):
        if name in ours and name not in found:
            for dep in known[name]:
                add(dep)
            found.append(name)

    for name in names:
        if name not in ours:
            sys.exit(f"use-in: there is no library {name}; there are {', '.join(ours)}")
        add(name)
    return found


def files_of(library):
    """The files of a library: the path in the other repository, and the content."""
    folder = TOP / "crates" / library
    for part in PARTS:
        for path in sorted((folder / part).rglob("*")):
            if path.is_file():
                yield f"crates/{path.relative_to(TOP / 'crates')}", path.read_bytes()
    yield f"crates/{library}/CALLING.md", calling_page(library).encode()
    for name in LICENCES:
        yield f"crates/{library}/{name}", (TOP / name).read_bytes()


def calling_page(library):
    """Returns the page CALLING.md of a library, with the clauses of its public items added."""
    page = (TOP / "crates" / library / "CALLING.md").read_text()
    lines = list(clauses(Library(library)))
    return page + (CLAUSES + "```text\n" + "\n".join(lines) + "\n```\n" if lines else "")


def commit():
    """The commit of this repository, and whether its files are as it has them."""

    def git(*words):
        ran = ["git", "-C", str(TOP), *words]
        return subprocess.run(ran, capture_output=True, text=True, check=True).stdout.strip()

    try:
        return git("rev-parse", "HEAD") + (
            " and changes" if git("status", "--porcelain", "--", "crates", "VERSION") else ""
        )
    except (OSError, subprocess.CalledProcessError):
        return "unknown"


def noted(target):
    """The digests and the libraries that the note of an earlier run has."""
    digests, libraries = {}, []
    path = target / NOTE
    if path.is_file():
        for line in path.read_text().splitlines():
            first, _, rest = line.partition(" ")
            if first == "libraries":
                libraries = rest.split()
            elif len(first) == 64:
                digests[rest.strip()] = first
    return digests, libraries


def in_the_way(target, path, old, new):
    """Why a file can't be written or removed: it is the user's."""
    at = target / path
    for folder in list(at.relative_to(target).parents)[:-1]:
        if (target / folder).is_symlink() or (target / folder).is_file():
            return f"{folder} is no folder"
    if at.is_symlink() or at.is_dir():
        return f"{path} is no file"
    if not at.exists():
        return None
    there = digest(at.read_bytes())
    if there == old or (new is not None and there == digest(new)):
        return None
    return f"{path} was changed" if old else f"{path} isn't from here"


def main():
    words = sys.argv[1:]
    if not words or words[0].startswith("-"):
        sys.exit(__doc__)
    target = pathlib.Path(words[0]).resolve()
    if not target.is_dir():
        sys.exit(f"use-in: {target} is no folder")
    if target == TOP or TOP in target.parents:
        sys.exit("use-in: that is this repository")
    digests, before = noted(target)
    before = [name for name in before if name in caller_libraries()]
    libraries = with_those_below(before + words[1:] if words[1:] or before else caller_libraries())
    new = {path: content for library in libraries for path, content in files_of(library)}
    gone = [path for path in digests if path not in new]
    blocked = [
        why for path in new if (why := in_the_way(target, path, digests.get(path), new[path]))
    ]
    blocked += [why for path in gone if (why := in_the_way(target, path, digests[path], None))]
    if (target / NOTE).exists() and not (
        (target / NOTE).is_file() and (target / NOTE).read_text(errors="replace").startswith(HEAD)
    ):
        blocked.append(f"{NOTE} isn't from here")
    if blocked:
        for why in blocked:
            print(f"use-in: would overwrite or remove: {why}")
        print(
            "use-in: nothing was written. Move these away, or put back what was there, and run it again."
        )
        return 1
    written = 0
    for path, content in new.items():
        at = target / path
        if not at.exists() or at.read_bytes() != content:
            at.parent.mkdir(parents=True, exist_ok=True)
            at.write_bytes(content)
            written += 1
    for path in gone:
        (target / path).unlink(missing_ok=True)
        for folder in (target / path).relative_to(target).parents:
            if (
                str(folder) not in (".", "crates")
                and (target / folder).is_dir()
                and not os.listdir(target / folder)
            ):
                (target / folder).rmdir()
    version = (TOP / "VERSION").read_text().strip()
    note = [HEAD, f"version {version}", f"commit {commit()}", f"libraries {' '.join(libraries)}"]
    (target / NOTE).write_text(
        "\n".join(note + [f"{digest(content)}  {path}" for path, content in new.items()]) + "\n"
    )
    print(
        f"use-in: version {version}, {len(libraries)} libraries, {written} files written, {len(gone)} removed, in {target}"
    )
    there = (
        (target / "crates.txt").read_text().splitlines()
        if (target / "crates.txt").is_file()
        else []
    )
    lines = [f"{name}: {' '.join(deps)}" for name, _, deps in crate_lines() if name in libraries]
    lacking = [line for line in lines if line not in there]
    if lacking:
        print("use-in: crates.txt has to have these lines:")
        for line in lacking:
            print(line)
    for library in libraries:
        for line in there:
            if line.split(":")[0].strip() == library and line not in lines:
                print(f"use-in: in place of this one: {line}")
    return 0


if __name__ == "__main__":
    sys.exit(main())
