#!/usr/bin/env python3
"""Compares the C code that ir2c.py makes from each instruction with the code of the kit's compiler.

usage: test_ir2c.py [--inputs COUNT] [COMPILER..]

The kit's clang compiles each function of the files *_cases.py, without optimization. ir2c.py
translates it to C, which each compiler of COMPILERS compiles, or each named one. All run with the
same inputs, and all bytes that they write are compared. Without names, compilers that aren't
installed are left out. A named one has to be installed.
"""

import pathlib
import shutil
import subprocess
import sys
import tempfile
import time

sys.dont_write_bytecode = True
HERE = pathlib.Path(__file__).resolve().parent
sys.path.insert(0, str(HERE))
sys.path.insert(1, str(HERE.parent.parent / ".ci"))
from block_cases import blocks, calls, copies, places  # noqa: E402
from compilers import COMPILERS, command  # noqa: E402
from float_cases import floats  # noqa: E402
from functions import HOST, host_declarations  # noqa: E402
from instruction_cases import Cases, arithmetic, checks, conversions, copied  # noqa: E402
from instruction_cases import division, intrinsics, order, truths  # noqa: E402
from ir import LAYOUT, TRIPLE, Unknown  # noqa: E402
from ir2c import about, translate  # noqa: E402
from vector_cases import lanes, vectors  # noqa: E402

HEADER = """\
#ifndef KOMBILAD_H
#define KOMBILAD_H
#include <stddef.h>
#include <stdint.h>
enum { KOMBILAD_NO_MEMORY = 1 };
void kombilad_run(uint32_t which, uint8_t *in, uint8_t *out);
#endif
"""
# Lines that stop the translation, and a part of the reason.
STOPS = [
    ("%r = fadd float %a, %b", "in place of `double`"),
    ("%r = fadd fast double 1.0e+00, 2.0e+00", "in place of `double`"),
    ("%r = frem double 1.0e+00, 2.0e+00", "the instruction"),
    ("%r = uitofp i128 5 to double\n  store double %r, ptr %out", "a conversion to a float"),
    ("%r = call i32 @close(i32 %which)", "isn't defined"),
    ("%r = mul i256 1, 2\n  %t = trunc i256 %r to i8\n  store i8 %t, ptr %out", "256 bits"),
    ("%p = getelementptr i8, ptr @nothing, i64 1\n  store i8 1, ptr %p", "the address of nothing"),
    ("%r = load volatile i8, ptr %in, align 1", "in place of a type"),
    ("%r = load i9, ptr %in, align 2\n  store i9 %r, ptr %out, align 2", "9 bits in memory"),
    ("%r = load <2 x i32>, ptr %in\n  store <2 x i32> %r, ptr %out", "a vector in memory"),
    ("call void %in()", "a call that isn't of a named function"),
    ("call void @unknown()", "isn't defined"),
    ("fence seq_cst", "the instruction"),
    ('%r = call i8 asm "nop", "=r"()', "a named function"),
    ("%r = sdiv i128 5, 3\n  store i128 %r, ptr %out", "a division of 128 bits"),
    ("br label %next\nnext:\n  %r = alloca i8\n  store i8 1, ptr %r", "outside of the first block"),
]
KIT_FLAGS = "--target=x86_64-unknown-linux-gnu -march=x86-64-v2 -x ir -O0 -c".split()


def all_cases():
    cases = Cases()
    for add in (arithmetic, division, checks, conversions, truths, intrinsics, copied, order):
        add(cases)
    for add in (places, blocks, copies, calls, vectors, lanes, floats):
        add(cases)
    return cases


def run(words, **more):
    done = subprocess.run(
        list(map(str, words)), stdout=subprocess.PIPE, stderr=subprocess.STDOUT, text=True, **more
    )
    if done.returncode:
        raise RuntimeError(f"{' '.join(map(str, words))}\n{done.stdout[-3000:]}")
    return done.stdout


def check_stops():
    """Checks that the translator stops at anything unknown, and names it."""
    failed = []
    for lines, reason in STOPS:
        text = (
            f'target datalayout = "{LAYOUT}"\ntarget triple = "{TRIPLE}"\n'
            "define void @kombilad_run(i32 %which, ptr %in, ptr %out) {\nstart:\n"
            f"  {lines}\n  ret void\n}}\n"
        )
        try:
            translate(text, about([], False), HEADER)
            failed.append(f"{lines!r}: translated")
        except Unknown as what:
            if reason not in str(what):
                failed.append(f"{lines!r}: {what}")
    return failed


def check_flags(folder):
    """Checks that floats don't compile if they would be inexact."""
    for flag in ("-ffast-math", "-ffinite-math-only", "-mfpmath=387"):
        words = ["gcc", flag, "-fsyntax-only", f"-I{folder}", folder / "kombilad.c"]
        try:
            run(words)
            yield f"gcc {flag}: it compiles"
        except RuntimeError as what:
            if "needs exact floats" not in str(what):
                yield f"gcc {flag}: {what}"


def check_host(folder):
    """Checks that posix.c defines each function as a program declares it."""
    posix = (HERE / "posix.c").read_text(encoding="utf-8")
    types = "typedef uint8_t u8; typedef uint32_t u32; typedef uint64_t u64; typedef u8 *P;"
    declared = list(host_declarations(posix))
    text = "\n".join([posix, types, *declared, ""])
    (folder / "host.c").write_text(text, encoding="utf-8")
    if len(declared) != len(HOST):
        yield f"posix.c defines {len(declared)} functions of {len(HOST)}"
    try:
        run(["gcc", "-std=c99", "-Wall", "-Wextra", "-Werror", "-fsyntax-only", folder / "host.c"])
    except RuntimeError as what:
        yield str(what)


def printed(folder, kit, text):
    """Returns the module as LLVM prints it."""
    (folder / "written.ll").write_text(text, encoding="utf-8")
    flags = ["-x", "ir", "-S", "-emit-llvm", "-Xclang", "-disable-llvm-passes"]
    clang = kit / "toolchain" / "bin" / "clang"
    run([clang, *flags, folder / "written.ll", "-o", folder / "cases.ll"])
    return (folder / "cases.ll").read_text(encoding="utf-8")


def native(folder, kit):
    """Builds the module by the kit's clang, without optimization."""
    run(
        [
            kit / "toolchain" / "bin" / "clang",
            *KIT_FLAGS,
            folder / "cases.ll",
            "-o",
            folder / "cases.o",
        ]
    )
    alloc = HERE.parent / "c" / "alloc.c"
    program = folder / "native"
    driver = HERE / "test_instructions.c"
    run(["gcc", "-O1", f"-I{folder}", driver, alloc, folder / "cases.o", "-o", program])
    return program


def main():
    words, inputs = sys.argv[1:], 1024
    if words[:1] == ["--inputs"]:
        inputs, words = int(words[1]), words[2:]
    from built import kit  # only this function needs the kit

    failed = check_stops()
    cases = all_cases()
    names = [name for name, _ in cases.functions]
    with tempfile.TemporaryDirectory() as folder:
        folder = pathlib.Path(folder)
        text = cases.module(LAYOUT, TRIPLE)
        text = printed(folder, kit(), text)
        (folder / "kombilad.h").write_text(HEADER, encoding="utf-8")
        try:
            made = translate(text, about([], False), HEADER)
        except Unknown as what:
            sys.exit(f"test_ir2c.py: not known: {what}")
        (folder / "kombilad.c").write_text(made, encoding="utf-8")
        failed += [*check_flags(folder), *check_host(folder)]
        for it in failed:
            print(f"test_ir2c.py: {it}")
        expected = run([native(folder, kit()), len(names), inputs]).splitlines()
        for name in words or COMPILERS:
            compiler, flags, runner = COMPILERS[name]
            if not shutil.which(compiler) or (runner and not shutil.which(runner[0])):
                print(f"test_ir2c.py: {name}: not installed")
                failed += [name] * bool(words)
                continue
            begun = time.monotonic()
            program = folder / "program"
            sources = [HERE / "test_instructions.c", folder / "kombilad.c"]
            try:
                warnings = run([*command(name), f"-I{folder}", *sources, "-o", program])
                found = run([*runner, program, len(names), inputs]).splitlines()
            except RuntimeError as what:
                failed.append(name)
                print(f"test_ir2c.py: {name}: {what}")
                continue
            differ = [it for it, (old, new) in zip(names, zip(expected, found)) if old != new]
            if warnings or differ or len(found) != len(expected):
                failed.append(name)
            print(
                f"test_ir2c.py: {name}: {len(names)} functions, {inputs} inputs each, "
                f"{len(differ)} differ, {time.monotonic() - begun:.1f} s"
                + "".join(f"\n    {it}" for it in differ[:20])
                + (f"\n{warnings[:2000]}" if warnings else "")
            )
    if failed:
        sys.exit(1)


if __name__ == "__main__":
    main()
