"""Checks that the libraries export only the calls of kombilad.h, and need only the C library. In
the shared library each call must have its version in kombilad.map.

usage: python exports.py libkombilad.a libkombilad.so.0 ARCHIVE

The first two are the library for x86-64. ARCHIVE is kombilad.c, compiled by a C compiler.
"""

import pathlib
import re
import subprocess
import sys

HEADER = pathlib.Path(__file__).resolve().parent.parent / "c" / "kombilad.h"
MAP = HEADER.with_suffix(".map")
WANTED = {"free", "malloc", "memcpy", "memmove", "memset", "realloc"}
# The symbols that the linker and the C compiler put into each shared library.
WEAK = {
    "_ITM_deregisterTMCloneTable",
    "_ITM_registerTMCloneTable",
    "__cxa_finalize",
    "__gmon_start__",
}


def told(*words):
    return subprocess.run(words, stdout=subprocess.PIPE, text=True, check=True).stdout


def names(listing, column=-1):
    return {
        line.split()[column].split("@")[0]
        for line in listing.splitlines()
        if line.strip() and not line.endswith(":")
    }


def same(what, seen, expected):
    if seen != expected:
        sys.exit(f"exports: {what}: {sorted(seen ^ expected)}")


def by_version():
    """Returns the calls with the version of each in the linker's script."""
    return {
        f"{call}@@{version}"
        for version, calls in re.findall(
            r"^(KOMBILAD_[\d.]+) \{(.*?)^\}", MAP.read_text(), re.M | re.S
        )
        for call in re.findall(r"kombilad_\w+", calls)
    }


def main():
    archive, shared, compiled = sys.argv[1:]
    calls = set(re.findall(r"^(?:uint32_t|void) (kombilad_\w+)\(", HEADER.read_text(), re.M))
    same("of the archive", names(told("nm", "-g", "--defined-only", archive)), calls)
    same("the archive wants", names(told("nm", "-u", archive)), WANTED)
    same("of the compiled archive", names(told("nm", "-g", "--defined-only", compiled)), calls)
    # Each compiler calls some of these functions. Proved code doesn't reach its calls of abort.
    wanted = WANTED | {"abort"}
    same("the compiled archive wants", names(told("nm", "-u", compiled)) | wanted, wanted)
    exported = told("nm", "-D", "--defined-only", "--with-symbol-versions", shared)
    versioned = {line.split()[-1] for line in exported.splitlines() if " A " not in line}
    same("of the shared library", {it.split("@")[0] for it in versioned}, calls)
    same("the versions of the calls", versioned, by_version())
    same("the shared library wants", names(told("nm", "-D", "-u", shared)) - WEAK, WANTED)
    dynamic = told("readelf", "-d", shared)
    same("its libraries", set(re.findall(r"NEEDED.*\[(.*)\]", dynamic)), {"libc.so.6"})
    same("its name", set(re.findall(r"SONAME.*\[(.*)\]", dynamic)), {"libkombilad.so.0"})
    if "TEXTREL" in dynamic:
        sys.exit("exports: the shared library has relocations in its code")
    print(f"exports: {len(calls)} calls and nothing else: ok")


if __name__ == "__main__":
    main()
