"""The LLVM modules from which the C files are made: that of the library kombilad_c, and those of
programs."""

import os
import pathlib
import shutil
import sys
import tempfile

sys.dont_write_bytecode = True
HERE = pathlib.Path(__file__).resolve().parent
# It comes first in the path, so that a module is searched there first.
sys.path.insert(0, str(HERE.parent.parent / ".ci"))
import quick  # noqa: E402
from built import (  # noqa: E402
    CRATES,
    NotBuilt,
    build_keeping,
    has_libraries,
    is_newer,
    kit,
    static_library,
    told,
)

LIBRARY = "kombilad_c"
# The module that is linked with each module before it is optimized.
FEATURES = HERE / "features.ll"
# Without vectors, except those in the source. Also without tables of pointers, which aren't
# constants in C on every processor.
OPTIMIZE = (
    "--target=x86_64-unknown-linux-gnu -march=x86-64-v2 -x ir -O2 -fno-vectorize -fno-slp-vectorize"
    " -mllvm -switch-to-lookup=false -S -emit-llvm"
).split()


def proved(crate):
    """
    Returns the module that `rattle` proved and passed to its compiler. If it is older than a
    source, the crate is proved and built again.
    """
    made = CRATES / crate / "out" / "module" / "module.bc"
    if is_newer(made):
        return made
    if not has_libraries(crate):
        # There are no libraries from `rt ci`. For the C library `rt lib` proves those below it.
        if crate != LIBRARY:
            raise NotBuilt(f"what is below {crate} is not proved: run rt ci first")
        static_library(crate)
    build_keeping(crate)
    if not is_newer(made):
        raise NotBuilt("rattle handed its compiler no module")
    return made


def unproved(crate):
    """Returns the module of the same sources without their proofs, with checks of overflow and
    bounds."""
    folder = CRATES / crate / "out" / "unproved"
    if crate == LIBRARY:
        quick.build(crate, "library", folder)
        return folder / "module.ll"
    folder.mkdir(parents=True, exist_ok=True)
    made, noted, wanted = (
        folder / "module.bc",
        folder / "module.key",
        quick.key(crate, "module", ()),
    )
    if made.is_file() and noted.is_file() and noted.read_text(encoding="utf-8") == wanted:
        return made
    noted.unlink(missing_ok=True)
    with tempfile.TemporaryDirectory(prefix="kombilad-") as room:
        shutil.copyfile(quick.module(crate, "program", pathlib.Path(room))[0], made)
    noted.write_text(wanted, encoding="utf-8")
    return made


def optimized(crate, is_proved):
    """Returns the path of a crate's module, optimized by the kit's clang with -O2, as text."""
    module = proved(crate) if is_proved else unproved(crate)
    made = module.with_name("optimized.ll")
    if made.is_file() and made.stat().st_mtime > module.stat().st_mtime:
        return made
    half, linked = made.with_suffix(".part"), made.with_name("features.bc")
    clang = kit() / "toolchain" / "bin" / "clang"
    told([clang, "-x", "ir", "-c", "-emit-llvm", FEATURES, "-o", linked], HERE, FEATURES.name)
    words = [*OPTIMIZE, "-Xclang", "-mlink-builtin-bitcode", "-Xclang", linked, module]
    told([clang, *words, "-o", half], module.parent, made.name)
    os.replace(half, made)
    return made
