#!/usr/bin/env python3
"""Plants faults in the translator, one at a time, and reports which test detects each.

usage: faults.py FOLDER [WORD]    (those whose file or text has the word)
       faults.py --check          only looks whether each can be planted: its text is in its file once

FOLDER has optimized.ll and libkombilad_c.a, such as crates/kombilad_c/out/unproved after `make.py
--unproved`. Each fault is put into a copy of the translator. The tests of instructions run first,
and the cases of compare/ if those don't detect it. If no test detects a fault, the status is 1.
"""

import pathlib
import re
import shutil
import subprocess
import sys
import tempfile

sys.dont_write_bytecode = True
HERE = pathlib.Path(__file__).resolve().parent
TOP = HERE.parent.parent
USUAL = "gcc -O0"
PLAIN = "gcc strict memcpy"
INPUTS = 256

# The file, the text, its replacement, and the compilers with which the tests run.
FAULTS = [
    # Pointers that are copied
    ("pointers.py", 'in ("load", *PASSING)', "in PASSING", ["i386"]),
    ("pointers.py", 'PASSING = ("phi", ', 'PASSING = ("ret", ', ["i386"]),
    ("pointers.py", '"select", "freeze")', '"freeze")', ["i386"]),
    ("pointers.py", "self.parameters[name].add(at)", "pass", ["i386"]),
    ("pointers.py", "        self.results |= {", "        {", ["i386"]),
    ("pointers.py", 'if made.op == "store":', 'if made.op == "load":', ["i386"]),
    ("pointers.py", 'elif made.op == "insertvalue":', 'elif made.op == "load":', ["i386"]),
    (
        "values.py",
        'return "u64" if isinstance(kind, Pointer)',
        'return "P" if isinstance(kind, Pointer)',
        ["i386"],
    ),
    ("instructions.py", "loads=True, is_wide=is_wide)", "loads=True)", ["i386"]),
    # Numbers
    ("instructions.py", 'cast(f"int{width}_t"', 'cast(f"uint{width}_t"', [USUAL]),
    ("instructions.py", '"lt": "<", "le"', '"lt": "<=", "le"', [USUAL]),
    ("instructions.py", '"xor": "^"', '"xor": "|"', [USUAL]),
    ("instructions.py", "32), width - 1)", "32), width // 2 - 1)", [USUAL]),
    ("instructions.py", "1 << (bits - 1))\n", "1 << (bits // 2))\n", [USUAL]),
    (
        "instructions.py",
        "        return cast(held(bits), part)\n",
        "        return self.extended(source.bits, held_bits(bits.bits), part)\n",
        [USUAL],
    ),
    ("instructions.py", "(1 << bits) - 1)", "(2 << bits) - 1)", [USUAL]),
    ("instructions.py", "part, number(width, 1))", "part, number(width, 2))", [USUAL]),
    ("instructions.py", "number(bits, -value)", "number(bits, 1 - value)", [USUAL]),
    (
        "instructions.py",
        'return self.cut(bits, combine("{} " + operator',
        'return (lambda _, it, __: it)(bits, combine("{} " + operator',
        [USUAL],
    ),
    ("instructions.py", 'condition[1:] in ("gt", "le")', 'condition[1:] in ("gt", "ge")', [USUAL]),
    ("values.py", '64: "ull"}[held_bits', '64: "u"}[held_bits', [USUAL]),
    ("prelude.c", "(TYPE)(a < b ? 0 : a - b)", "(TYPE)(a - b)", [USUAL]),
    ("prelude.c", "(u64)__builtin_ctzll(a) : 64", "(u64)__builtin_ctzll(a) : 63", [USUAL]),
    (
        "prelude.c",
        "by ? (TYPE)(a << by) | b >> (BITS - by) : a",
        "by ? (TYPE)(a << by) | b >> (BITS - by) : b",
        [USUAL],
    ),
    ("prelude.c", "~((TYPE)~a >> by) : a >> by", "(a >> by) : a >> by", [USUAL]),
    ("prelude.c", "product >> BITS != 0", "product >> 8 != 0", [USUAL]),
    ("prelude.c", "third << 32 | (first & half)", "third << 32", [PLAIN]),
    ("prelude.c", "make_u128(low << (by - 64), 0)", "make_u128(low << (by & 31), 0)", [USUAL]),
    # Floats
    (
        "prelude.c",
        "volatile double made = double_of(a) OP",
        "double made = double_of(a) OP",
        ["aarch64"],
    ),
    ("prelude.c", "volatile double made = (double)number", "float made = (float)number", [USUAL]),
    ("prelude.c", "return a ^ 1ull << 63;", "return bits_of(0 - double_of(a));", [USUAL]),
    ("prelude.c", "return a & ~(1ull << 63);", "return a & ~(1ull << 62);", [USUAL]),
    ("prelude.c", "eq_f64(a, a) && eq_f64(b, b)", "eq_f64(a, a) || eq_f64(b, b)", [USUAL]),
    ("prelude.c", "lt_f64(a, b) || lt_f64(b, a)", "!eq_f64(a, b)", [USUAL]),
    ("prelude.c", "le=<=\x20*/\nstatic INLINE bool", "le=< */\nstatic INLINE bool", [USUAL]),
    ("instructions.py", '"ugt": (True, "le", False)', '"ugt": (False, "lt", True)', [USUAL]),
    ("instructions.py", '"fdiv": "div_f64"', '"fdiv": "mul_f64"', [USUAL]),
    ("tokens.py", 'struct.pack("<d", float(text))', 'struct.pack("<d", int(float(text)))', [USUAL]),
    # Wide numbers
    (
        "prelude.c",
        "ult_u128(a, b) ? make_u128(0, 0) :",
        "ult_u128(b, a) ? make_u128(0, 0) :",
        [USUAL],
    ),
    (
        "prelude.c",
        "high_u128(a) >> 63 ? sub_u128(make",
        "low_u128(a) >> 63 ? sub_u128(make",
        [USUAL],
    ),
    ("prelude.c", "if (!ult_u128(rest, b))", "if (ult_u128(b, rest))", [PLAIN]),
    ("prelude.c", "make_u128(0, ult_u128(low, a.low))", "make_u128(0, 0)", [USUAL]),
    ("prelude.c", "make_u128(0, ult_u128(a.low, b.low))", "make_u128(0, 0)", [USUAL]),
    # Choices, structs and places
    (
        "instructions.py",
        '"{} ? {} : {}", condition, first, second',
        '"{} ? {} : {}", condition, second, first',
        [USUAL],
    ),
    ("instructions.py", 'combine("{} && {}"', 'combine("{} || {}"', [USUAL]),
    ("instructions.py", "(item,) + fields[index + 1 :]", "fields[index:]", [USUAL]),
    ("instructions.py", "wide if step == 1 else", "wide if step else", [USUAL]),
    (
        "instructions.py",
        "wide = self.extended(bits, 64, index)",
        'wide = cast("u64", index)',
        [USUAL],
    ),
    (
        "ir.py",
        "item in enumerate(kind.fields):\n        step = alignment_of(item)",
        "item in enumerate(kind.fields):\n        step = 1",
        [USUAL],
    ),
    (
        "tokens.py",
        '            found += b"\\\\"\n            at += 2',
        "            at += 2",
        [USUAL],
    ),
    # Blocks and the order of statements
    (
        "functions.py",
        "for other in moves if other is not it",
        "for other in moves if other is it",
        [USUAL],
    ),
    ("functions.py", "other.value = Expression(kept, frozenset([kept]))", "pass", [USUAL]),
    (
        "functions.py",
        "place = pointer(place)\n        self.settle()",
        "place = pointer(place)",
        [USUAL],
    ),
    (
        "functions.py",
        "enumerate(made.operands)\n        ]\n        self.settle()",
        "enumerate(made.operands)\n        ]",
        [USUAL],
    ),
    (
        "functions.py",
        "for it in made.operands[:3])\n        self.settle()",
        "for it in made.operands[:3])",
        [USUAL],
    ),
    ("functions.py", '["cases"], labels[1:])', '["cases"], labels)', [USUAL]),
    ("functions.py", 'Expression(f"!{condition.operand}")', "condition", [USUAL]),
    # Memory
    ("functions.py", '"memmove": "move_bytes"', '"memmove": "copy_bytes"', [PLAIN]),
    (
        "functions.py",
        'self.lines.append(f"{callee}(',
        "self.lines.append(f\"{callee.replace('memmove', 'memcpy')}(",
        [PLAIN],
    ),
    ("prelude.c", "if (size) memcpy", "memcpy", [PLAIN]),
    ("prelude.c", "return p[0] | (u32)p[1] << 8 |", "return p[0] | (u32)p[1] << 9 |", [PLAIN]),
    (
        "prelude.c",
        "    memcpy(p, &v, 8);\n#else\n    st_u64",
        "    memcpy(p, &v, 4);\n#else\n    st_u64",
        [USUAL],
    ),
    ("prelude.c", "made.f0 = block != NULL", "made.f0 = 1", [USUAL]),
    (
        "prelude.c",
        "KOMBILAD_REALLOC(block, (size_t)(size ? size : align))",
        "KOMBILAD_REALLOC(block, (size_t)(size ? size - 1 : align))",
        ["gcc sanitized"],
    ),
    (
        "prelude.c",
        "    if (size > (u64)PTRDIFF_MAX) return tried(NULL);\n    return tried(KOMBILAD_MALLOC",
        "    return tried(KOMBILAD_MALLOC",
        ["i386"],
    ),
    # Vectors
    ("instructions.py", '".high" if at * 16 >= count', '".high" if at * 16 < count', [USUAL]),
    ("instructions.py", "chunk_at(start // 16 + 1)", "chunk_at(start // 16)", [USUAL]),
    (
        "instructions.py",
        "whole, item, literal(str(at))",
        "whole, item, literal(str(at ^ 1))",
        [USUAL],
    ),
    ("prelude.c", "from[at_places[at] & 15]", "from[at_places[at] & 7]", [PLAIN]),
    ("prelude.c", "(u32)(a.b[at] >> 7) << at", "(u32)(a.b[at] >> 7) << (15 - at)", [PLAIN]),
    ("prelude.c", "vdupq_n_u8(0x8f)", "vdupq_n_u8(0xff)", ["aarch64"]),
    ("instructions.py", "self.cut(source.count, mask, 32)", "mask", [USUAL]),
    ("prelude.c", "memcpy(p, &v, NAME)", "memcpy(p, &v, 16)", [USUAL]),
    ("instructions.py", "literal(str(at * bits))", "literal(str(at * bits // 2))", [USUAL]),
    ("instructions.py", "in range(0, 64, bits)", "in range(64 - bits, -1, -bits)", [USUAL]),
    ("instructions.py", "items[it or 0] for it", "items[it and 0] for it", [USUAL]),
    # Other processors
    ("wrappers.py", 'self.after.append(f"*{it.name}', 'self.before.append(f"*{it.name}', ["i386"]),
    ("wrappers.py", "            self.after.append(line)\n", "", ["s390x"]),
    ("wrappers.py", 'KOMBILAD_FREE({copy});" for', ';" for', ["s390x"]),
    ("wrappers.py", '"uint32_t": 4}', '"uint32_t": 8}', ["s390x"]),
]


def text_of(fault):
    return f"{fault[0]}: {fault[1].strip()[:60]!r} -> {fault[2].strip()[:60]!r}"


def planted(folder, fault):
    """Copies the translator into a folder, with a fault."""
    place = folder / "bindings" / "portable"
    shutil.rmtree(folder / "bindings", ignore_errors=True)
    shutil.copytree(HERE, place, ignore=shutil.ignore_patterns("__pycache__"))
    (folder / "bindings" / "c").symlink_to(HERE.parent / "c")
    if not (folder / ".ci").exists():
        (folder / ".ci").symlink_to(TOP / ".ci")
    path = place / fault[0]
    if fault[1]:
        text = path.read_text(encoding="utf-8")
        path.write_text(text.replace(fault[1], fault[2]), encoding="utf-8")
    return place


def run(*words):
    """Returns whether a command fails, and the number of cases that it reports as different."""
    words = [sys.executable, *map(str, words)]
    done = subprocess.run(words, stdout=subprocess.PIPE, stderr=subprocess.STDOUT, text=True)
    return done.returncode != 0, sum(map(int, re.findall(r"(\d+) differ", done.stdout)))


def seen_by(place, made, compilers):
    """Returns the test that detects a fault, and how it does, or None if no test does."""
    failed, count = run(place / "test_ir2c.py", "--inputs", INPUTS, *compilers)
    if failed:
        return f"instructions ({count} functions)" if count else "instructions (stopped)"
    to = place.parent / "made"
    header = place.parent / "c" / "kombilad.h"
    if run(place / "ir2c.py", "--unproved", made / "optimized.ll", header, to)[0]:
        return "the translator (stopped)"
    library = made / "libkombilad_c.a"
    failed, count = run(place / "compare" / "same.py", to, library, "--cases", "20", *compilers)
    if failed:
        return f"cases ({count} outcomes)" if count else "cases (stopped)"
    return None


def main():
    words = sys.argv[1:]
    if len(words) not in (1, 2):
        sys.exit(__doc__)
    wrong = 0
    for fault in FAULTS:
        count = (HERE / fault[0]).read_text(encoding="utf-8").count(fault[1])
        if count != 1:
            wrong += 1
            print(f"faults.py: {count} times there: {text_of(fault)}")
    if wrong or words[0] == "--check":
        sys.exit(1 if wrong else 0)
    made, word = pathlib.Path(words[0]).resolve(), "".join(words[1:])
    chosen = [it for it in FAULTS if word in it[0] or word in it[1]]
    unseen = 0
    with tempfile.TemporaryDirectory() as folder:
        folder = pathlib.Path(folder)
        place = planted(folder, ("ir.py", "", "", []))
        seen = seen_by(place, made, [USUAL, PLAIN])
        if seen:
            sys.exit(f"faults.py: without a fault there fails: {seen}")
        for fault in chosen:
            place = planted(folder, fault)
            seen = seen_by(place, made, fault[3])
            unseen += seen is None
            print(f"faults.py: {seen or 'NOT SEEN'}: {text_of(fault)}", flush=True)
    print(f"faults.py: {len(chosen)} faults, {unseen} not seen")
    sys.exit(1 if unseen else 0)


if __name__ == "__main__":
    main()
