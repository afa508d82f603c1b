"""Checks that each status has the same number in the header, in kombilad-sys, in the Python package
and in the definitions that the proofs cite. Checks also that each kind of entry has the same number
in the header and in dag_cbor_blocks."""

import pathlib
import re
import sys

BINDINGS = pathlib.Path(__file__).resolve().parent.parent
CRATES = BINDINGS.parent / "crates"
SPECS = CRATES / "kombilad_c" / "specs"


def found(path, pattern):
    return {
        name: int(number)
        for name, number in re.findall(pattern, path.read_text(encoding="utf-8"), re.M)
    }


def defined():
    """Returns the numbers of each error in the definitions, by its name in the header."""
    prefixes = {
        "cid": "CID_",
        "text": "TEXT_",
        "link": "LINK_",
        "block": "BLOCK_",
        "car": "CAR_",
        "verify": "",
        "encode": "TAPE_",
        "pb": "PB_",
        "json": "JSON_",
        "message": "UNIXFS_",
        "node": "FILE_",
        "file": "FILE_",
        "folder": "FOLDER_",
        "pack": "PACK_",
    }
    others = {
        "FILE_FILE_SIZE": "FILE_SIZE",
        "FILE_FINISHED": "WALK_DONE",
        "FOLDER_FINISHED": "WALK_DONE",
    }
    numbers = {}
    for kind, name, number in re.findall(
        r"^(\w+)_status \(?(?:\w+\.)?(\w+).*= (\d+)$",
        (SPECS / "Status.antt").read_text(encoding="utf-8"),
        re.M,
    ):
        upper = (
            re.sub(r"(?<=[a-z])(?=[A-Z0-9])|(?<=[A-Z])(?=[A-Z][a-z])", "_", name)
            .upper()
            .replace("UTF_8", "UTF8")
        )
        if name == "Memory" or number == "1":
            numbers.setdefault("NO_MEMORY", set()).add(int(number))
        elif number == "15":
            numbers.setdefault("OTHER", set()).add(15)
        elif kind == "limit" or kind == "json" and name in ("TooDeep", "TooMany"):
            numbers.setdefault(upper, set()).add(int(number))
        else:
            named = f"{prefixes[kind]}{upper}"
            numbers.setdefault(others.get(named, named), set()).add(int(number))
    return numbers


def main():
    header = found(BINDINGS / "c" / "kombilad.h", r"^    KOMBILAD_((?!BASE|KIND|NODE)\w+) = (\d+)")
    rust = found(
        BINDINGS / "rust" / "kombilad-sys" / "src" / "lib.rs",
        r"^pub const KOMBILAD_((?!NODE)\w+): u32 = (\d+);",
    )
    rust.pop("BASE_USUAL", None)
    python = found(BINDINGS / "python" / "src" / "kombilad" / "_status.py", r"^    (\w+) = (\d+)$")
    for name, numbers in (("kombilad-sys", rust), ("the Python package", python)):
        if numbers != header:
            sys.exit(
                f"statuses: {name} and kombilad.h differ in {sorted(set(numbers.items()) ^ set(header.items()))}"
            )
    for name, numbers in defined().items():
        if numbers != {header.get(name)}:
            sys.exit(
                f"statuses: the definitions have {numbers} for {name}, and kombilad.h {header.get(name)}"
            )
    kinds = found(BINDINGS / "c" / "kombilad.h", r"^    KOMBILAD_KIND_(\w+) = (\d+)")
    if kinds != found(
        CRATES / "dag_cbor_blocks" / "src" / "tape.rt", r"^pub const (\w+): u32 = (\d+);"
    ):
        sys.exit(f"statuses: kombilad.h and dag_cbor differ in the kinds of entries: {kinds}")
    print(f"statuses: {len(header)} numbers, the same everywhere: ok")


if __name__ == "__main__":
    main()
