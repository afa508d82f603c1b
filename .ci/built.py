"""What `rt ci` built, and left in the folder out/ of a crate."""

import functools
import os
import pathlib
import shlex
import shutil
import subprocess
import sys
import tempfile

sys.dont_write_bytecode = True
from sources import CRATES, crate_lines  # noqa: E402

# What a program is made of, and what rt makes beside it.
SOURCES = ("src", "specs", "proofs")
NO_RT = "rt not found: put the kit's bin folder on PATH"


class NotBuilt(Exception):
    """A program is not there, or is older than what it is made of."""


def newest_source():
    """When the newest source of a crate was written."""
    newest = 0.0
    for crate in CRATES.iterdir():
        for part in SOURCES:
            for folder, _, files in os.walk(crate / part):
                for name in files:
                    newest = max(newest, os.stat(os.path.join(folder, name)).st_mtime)
    return newest


def is_newer(path):
    """Returns whether a file exists, and is newer than the sources and the kit."""
    return path.is_file() and path.stat().st_mtime > max(
        newest_source(), (kit() / "bin" / "rattle").stat().st_mtime
    )


def built(crate, name):
    """The path of this file in the crate's out/, which `rt ci` made of the sources as they are."""
    path = CRATES / crate / "out" / name
    if not path.is_file():
        raise NotBuilt(f"{path} is not there: run rt ci first")
    if path.stat().st_mtime < newest_source():
        raise NotBuilt(f"{path} is older than a source: run rt ci first")
    path.chmod(path.stat().st_mode | 0o111)
    return path


@functools.lru_cache(maxsize=None)
def stands_on():
    """
    Returns what each crate of crates.txt stands on: libraries of the repository and of the kit.
    """
    return {name: deps for name, _, deps in crate_lines()}


def libraries(crate):
    """Returns the libraries of the repository below the crate, those that it names first."""
    named = stands_on()
    found = [name for name in named[crate] if name in named]
    for name in found:
        found += [it for it in named[name] if it in named and it not in found]
    return found


def of_kit(crate):
    """Returns the libraries of the kit that the crate names."""
    named = stands_on()
    return [name for name in named[crate] if name not in named]


@functools.lru_cache(maxsize=None)
def kit():
    """Returns the folder of the kit."""
    return pathlib.Path(told(["rt", "doc"], CRATES, "rt doc").strip()).parent


def told(words, folder, what):
    """What a command writes; where it fails, the end of that is the error."""
    if words[0] == "rt" and not shutil.which("rt"):
        raise NotBuilt(NO_RT)
    ran = subprocess.run(
        list(map(str, words)),
        cwd=folder,
        stdout=subprocess.PIPE,
        stderr=subprocess.STDOUT,
        text=True,
        errors="replace",
    )
    if ran.returncode:
        raise NotBuilt(f"{what} was not built:\n{ran.stdout[-3000:]}")
    return ran.stdout


def keeping(toolchain, folder, made, stops_at=None):
    """
    Makes a toolchain at `made` whose files are links to the kit's, except clang: a script that
    keeps the module that it is given, and its words, in the folder. If it is given the word
    `stops_at` it then ends with an error, and leaves the file `stopped`.
    """
    folder.mkdir(exist_ok=True)
    (made / "bin").mkdir()
    for link, to in [(made / "lib", toolchain / "lib")] + [
        (made / "bin" / it.name, it) for it in (toolchain / "bin").iterdir() if it.name != "clang"
    ]:
        link.symlink_to(to)
    script = made / "bin" / "clang"
    kept, clang = shlex.quote(str(folder / "module.bc")), shlex.quote(
        str(toolchain / "bin" / "clang")
    )
    stops = (
        f'case " $* " in *" {stops_at} "*) touch {shlex.quote(str(folder / "stopped"))}; exit 1 ;; esac\n'
        if stops_at
        else ""
    )
    script.write_text(
        f'#!/bin/sh\nset -e\necho "$@" > {shlex.quote(str(folder / "words"))}\n'
        f'for word in "$@"; do\n    case $word in *.bc) cp "$word" {kept} ;; esac\ndone\n{stops}exec {clang} "$@"\n',
        encoding="utf-8",
    )
    script.chmod(0o755)
    return made


def build_keeping(crate):
    """
    Proves a program or a static library over the libraries in the folders out/rlib, and builds it
    by a compiler that keeps its module: out/module/module.bc. Returns the path of the static
    library, or of the program's object. Proves nothing if both are newer than the sources. RT_JOBS
    is the number of jobs, and 1 if it isn't set.
    """
    home, out = kit(), CRATES / crate / "out"
    kept = out / "module"
    kept.mkdir(parents=True, exist_ok=True)
    words = [home / "bin" / "rattle", "build", "--crate-name", crate]
    if (CRATES / crate / "src" / "main.rt").is_file():
        made = kept / f"{crate}.o"
        words += ["src/main.rt"]
    else:
        made = out / f"lib{crate}.a"
        words += ["--crate-type", "staticlib", "src/lib.rt"]
    if is_newer(made) and is_newer(kept / "module.bc"):
        return made
    words += ["-o", made, "-L", f"dependency={home}/rlibs"]
    for name in ("std", *of_kit(crate)):
        words += ["--extern", f"{name}={home}/rlibs/{name}.rlib"]
    for name in libraries(crate):
        folder = CRATES / name / "out" / "rlib"
        words += ["--extern", f"{name}={folder}/{name}.rlib", "-L", f"dependency={folder}"]
    words += ["--antt-project", home / "rattle" / "logic" / "antt-project.json"]
    words += ["--logic-built", home / "logic_built"]
    words += ["--links", f"{crate}=", "--jobs", os.environ.get("RT_JOBS", "1")]
    # Its links stand outside of out/, in which rt takes none.
    with tempfile.TemporaryDirectory() as toolchain:
        words += ["--toolchain", keeping(home / "toolchain", kept, pathlib.Path(toolchain))]
        said = told(words, CRATES / crate, made.name)
    if "logic=proved " not in said:
        raise NotBuilt(f"rattle did not say that {crate} is proved:\n{said[-3000:]}")
    return made


def has_libraries(crate):
    """
    Returns whether `rt ci` left the libraries below a crate, without what `rt lib` knows them by.
    """
    return all(
        (folder / f"{name}.rlib").is_dir() and not (folder / "stamp").is_file()
        for name, folder in ((it, CRATES / it / "out" / "rlib") for it in libraries(crate))
    )


def static_library(crate):
    """
    The path of a crate's static library: over what `rt ci` left, else as `rt lib` makes it, which
    proves what isn't yet.
    """
    if not has_libraries(crate):
        print(
            f"rt lib of {crate}: it proves and builds what isn't yet, which takes minutes in a fresh clone",
            file=sys.stderr,
        )
        told(["rt", "lib"], CRATES / crate, f"lib{crate}.a")
        return CRATES / crate / "out" / f"lib{crate}.a"
    # `rt ci` makes the program of all that the libraries are made of.
    built("ipld_links", "ipld_links")
    return build_keeping(crate)
