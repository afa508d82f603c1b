#!/usr/bin/env python3
"""Translates an optimized LLVM module to one C99 file.

usage: ir2c.py [--unproved] MODULE.ll HEADER.h FOLDER    writes FOLDER/kombilad.c and kombilad.h
       ir2c.py [--unproved] MODULE.ll FOLDER/NAME.c      writes the program NAME

MODULE.ll is a module for x86-64 that exports the calls which the header declares, or `main`. If the
module has anything unknown, the script stops, names it, and doesn't write a file.
"""

import pathlib
import re
import sys
import textwrap

sys.dont_write_bytecode = True
from functions import ALLOCATING, EXTERNALS, Writer, check_declared, host_declarations  # noqa: E402
from functions import is_intrinsic  # noqa: E402
from ir import I32, Unknown  # noqa: E402
from pointers import Copies  # noqa: E402
from prelude import HEAD, TAIL, used_pieces  # noqa: E402
from reading import read_module  # noqa: E402
from values import struct_definition  # noqa: E402
from wrappers import portable_header, write_wrappers  # noqa: E402

ABOUT = """\
/* {what} as one C99 file. It was made by a script, bindings/portable/make.py: don't change it.
 *
{facts} *
{proved} *
 * {build}
 *
 * You may define KOMBILAD_MALLOC, KOMBILAD_REALLOC and KOMBILAD_FREE, all three. KOMBILAD_BASELINE
 * does without SSE4.1 on x86-64, and KOMBILAD_PLAIN without anything that C99 doesn't have. */
"""
PROVED = """\
 * Proved: the contracts of the crate kombilad_c and of the libraries below it, about their MIR. They
 * state which status, which bytes and which offset each call gives for each input, that each call
 * ends, and that it reads and writes only what it may.
 *
 * Believed, and not proved: that Rattle lowers MIR to LLVM's IR correctly, LLVM's optimizer (-O2),
 * the script that translated its result to this file, the C below that isn't translated (how memory
 * is read, written and allocated, and the calls of the header), and your compiler.
"""
PROVED_PROGRAM = """\
 * Proved: the contracts of the crate {name} and of the libraries below it, about their MIR: that the
 * program ends, reads and writes only the memory that it may, and what its libraries give for each
 * input.
 *
 * Believed, and not proved: that Rattle lowers MIR to LLVM's IR correctly, LLVM's optimizer (-O2),
 * the script that translated its result to this file, the C below that isn't translated (how memory
 * is read, written and allocated, and floats), posix.c, your compiler and your system.
"""
UNPROVED = """\
 * NOTHING OF THIS FILE IS PROVED. It is made of the sources of the proved {kind}, without their
 * proofs, and stops at an overflow or an index out of bounds.
"""
HEADER_HEAD = """\
/* This header belongs to kombilad.c. It differs from that of the library for x86-64 in the sizes in
 * records, which are uint64_t. */
"""


def reached(module):
    """Returns the names of the functions that the exports reach, in the module's order."""
    waiting = [name for name, it in module.functions.items() if not it.is_internal]
    seen = set(waiting)
    while waiting:
        function = module.functions[waiting.pop()]
        for block in function.blocks:
            for made in block.body:
                callee = made.words.get("callee")
                if callee is None or is_intrinsic(callee) or callee in module.declared:
                    continue
                if callee not in module.functions:
                    raise Unknown(f"the call of {callee}, which isn't defined")
                if callee not in seen:
                    seen.add(callee)
                    waiting.append(callee)
    return [name for name in module.functions if name in seen]


def short_name(name, at):
    """Returns a C name for a function, which ends with the last part of its own."""
    path = re.sub(r"::<.*", "", name)
    words = re.findall(r"[A-Za-z0-9_]+", path.rpartition("::")[2]) or [""]
    return f"f{at}_{words[-1]}"[:60]


def indented(lines):
    """Yields the lines of a function, indented by their braces."""
    depth = 1
    for line in lines:
        if line in ("}", "};"):
            depth -= 1
        is_label = re.fullmatch(r"L\d+:", line)
        yield ("" if is_label else "    " * depth) + line
        if line.endswith("{"):
            depth += 1


def as_comment(text):
    return text.replace("*/", "* /").replace("/*", "/ *")


def constant_text(name, constant):
    """Returns the definition of a constant. Its type has its alignment up to 8, as for an array on
    the stack."""
    data = constant.data or b"\0"
    lines, line = [], "   "
    for byte in data:
        if len(line) > 94:
            lines.append(line)
            line = "   "
        line += f" {byte},"
    lines.append(line)
    # Its pointers are written when the program starts.
    kind = "static " if constant.pointers else "static const "
    if constant.alignment == 1:
        return f"{kind}u8 {name}[{len(data)}] = {{\n" + "\n".join(lines) + "\n};\n"
    aligned = f"ALIGNED({constant.alignment}) ARRAY(u{min(constant.alignment, 8) * 8}, {len(data)})"
    return f"{kind}{aligned} {name} = {{{{\n" + "\n".join(lines) + "\n}};\n"


def translate(text, about, header=None):
    """Returns the C file of a module: of a library if it has a header, otherwise of a program."""
    module = read_module(text)
    check_declared(module, EXTERNALS if header is None else ALLOCATING)
    names, structs, bodies = {}, {}, []
    order = reached(module)
    for at, name in enumerate(order):
        names[name] = short_name(name, at)
    for at, (name, it) in enumerate(module.constants.items()):
        names[name] = f"g{at}.b" if it.alignment > 1 else f"g{at}"
    copies = Copies({name: module.functions[name] for name in order})
    for name in order:
        writer = Writer(module.functions[name], names, module.constants, structs, copies)
        head, lines = writer.write()
        bodies.append((name, head, "\n".join(indented(lines))))
    code = "\n".join(it for _, *parts in bodies for it in parts)
    used = set(re.findall(r"\bg\d+\b(?:\.b\b)?", code))
    if header is None:
        wrappers = write_main(module, names, used)
    else:
        wrappers = write_wrappers(header, module, names)
        if any(module.constants[it].pointers for it in module.constants if names[it] in used):
            raise Unknown("a constant with pointers in a library")
    code += wrappers
    parts = [about] if header is None else [about, '#include "kombilad.h"\n']
    parts += [HEAD, *host_declarations(code)]
    parts += [struct_definition(it) for it in structs.values()]
    parts += ["", used_pieces(code)]
    parts += [
        constant_text(names[name].partition(".")[0], it)
        for name, it in module.constants.items()
        if names[name] in used
    ]
    parts += [f"{head};" for _, head, _ in bodies]
    for name, head, body in bodies:
        parts.append(f"\n/* {as_comment(name)} */\n{head} {{\n{body}\n}}")
    return "\n".join(parts) + "\n\n" + wrappers + "\n" + TAIL


def write_main(module, names, used):
    """Returns the function that posix.c calls to start a program."""
    exported = [name for name, it in module.functions.items() if not it.is_internal]
    if exported != ["main"]:
        raise Unknown(f"a program that exports {exported}")
    main = module.functions["main"]
    if main.result != I32 or main.parameters:
        raise Unknown("the parameters or the result of main")
    lines = []
    for name, constant in module.constants.items():
        if constant.pointers and names[name] in used:
            pairs = [f"{{{at},{to}}}," for at, to in constant.pointers]
            lines += ["{", "static const u32 places[][2] = {"]
            lines += textwrap.wrap(" ".join(pairs), 86)
            lines += ["};", f"set_pointers({names[name]}, places, {len(pairs)});", "}"]
    lines.append(f"return {names['main']}();")
    head = "u32 program_main(void)"
    return "\n".join([f"{head};\n", f"{head} {{", *indented(lines), "}\n"])


def about(facts, is_proved, program=None):
    """Returns the head of the library's file, or of a program's file."""
    lines = "".join(f" * {it}\n" for it in facts)
    if program is None:
        what, kind, build, proved = "libkombilad", "library", "cc -O2 -c kombilad.c", PROVED
    else:
        what, kind = f"The program {program}", "program"
        build = f"cc -O2 {program}.c posix.c -o {program}"
        proved = PROVED_PROGRAM.format(name=program)
    proved = proved if is_proved else UNPROVED.format(kind=kind)
    return ABOUT.format(what=what, facts=lines, proved=proved, build=build)


def write(module, folder, facts, is_proved, header=None, program=None):
    """Writes the C file of a module into a folder, and the header of a library."""
    text, head = module.read_text(encoding="utf-8"), about(facts, is_proved, program)
    folder.mkdir(parents=True, exist_ok=True)
    if program:
        (folder / f"{program}.c").write_text(translate(text, head), encoding="utf-8")
        return
    declared = header.read_text(encoding="utf-8")
    (folder / "kombilad.c").write_text(translate(text, head, declared), encoding="utf-8")
    (folder / "kombilad.h").write_text(portable_header(declared, HEADER_HEAD), encoding="utf-8")


def main():
    words = sys.argv[1:]
    is_proved = "--unproved" not in words
    paths = [pathlib.Path(it) for it in words if it != "--unproved"]
    try:
        if len(paths) == 3:
            write(paths[0], paths[2], [], is_proved, header=paths[1])
        elif len(paths) == 2:
            write(paths[0], paths[1].parent, [], is_proved, program=paths[1].stem)
        else:
            sys.exit(__doc__)
    except Unknown as what:
        sys.exit(f"ir2c.py: not known: {what}")


if __name__ == "__main__":
    main()
