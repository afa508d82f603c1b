"""Test functions in LLVM's IR for floats, like those of instruction_cases.py."""

from instruction_cases import put

# The bits of doubles: zeros, ones, halves, thirds, the least and the greatest ones of each kind,
# and numbers near 2^53, 2^63 and 2^64. Also infinities, both kinds of NaN, and pairs whose products
# and sums have to be rounded, with the even neighbour above and below.
DOUBLES = [
    0x0000000000000000,
    0x8000000000000000,
    0x0000000000000001,
    0x8000000000000001,
    0x000FFFFFFFFFFFFF,
    0x0010000000000000,
    0x8010000000000001,
    0x1FF0000000000001,
    0x3CA0000000000000,
    0x3CA0000000000001,
    0x3CB0000000000000,
    0x3FD5555555555555,
    0x3FE0000000000000,
    0x3FEFFFFFFFFFFFFF,
    0x3FF0000000000000,
    0xBFF0000000000000,
    0x3FF0000000000001,
    0xBFF0000000000001,
    0x3FF0000000000002,
    0x3FF8000000000000,
    0x4008000000000000,
    0x41F0000000000000,
    0x433FFFFFFFFFFFFF,
    0x4340000000000000,
    0x4340000000000001,
    0x43E0000000000000,
    0x43EFFFFFFFFFFFFF,
    0x43F0000000000000,
    0x5FE6A09E667F3BCD,
    0x7FEFFFFFFFFFFFFF,
    0xFFEFFFFFFFFFFFFF,
    0x7FF0000000000000,
    0xFFF0000000000000,
    0x7FF8000000000000,
    0xFFF8000000000000,
    0x7FF0000000000001,
    0xFFF7FFFFFFFFFFFF,
]
# Integers near those that a double can't represent, and half-way between two doubles.
INTEGERS = [
    0,
    1,
    255,
    65535,
    (1 << 24) + 1,
    (1 << 32) - 1,
    (1 << 53) - 1,
    1 << 53,
    (1 << 53) + 1,
    (1 << 53) + 2,
    (1 << 53) + 3,
    (1 << 54) + 2,
    (1 << 54) + 6,
    (1 << 63) - 513,
    (1 << 63) - 512,
    (1 << 63) - 511,
    (1 << 63) - 1,
    1 << 63,
    (1 << 63) + 1023,
    (1 << 63) + 1024,
    (1 << 63) + 1025,
    (1 << 63) + 3072,
    (1 << 64) - 1025,
    (1 << 64) - 1024,
    (1 << 64) - 1023,
    (1 << 64) - 1,
]
CONDITIONS = "oeq ogt oge olt ole one ord ueq ugt uge ult ule une uno".split()
# The first operand: one of DOUBLES, or the input's own bits.
OPERANDS = {
    "": [
        f"%n = urem i64 %bits, {len(DOUBLES)}",
        "%p = getelementptr i64, ptr @doubles, i64 %n",
        "%a = load double, ptr %p, align 8",
    ],
    " of any bits": ["%a = bitcast i64 %bits to double"],
}


def over_all(cases, name, table, lines):
    """Adds a function that computes %r, a number of 64 bits, from %a and each item %b of a table.
    It writes a digest of all results."""
    kind = "double" if table is DOUBLES else "i64"
    source = "doubles" if table is DOUBLES else "integers"
    for words, operand in OPERANDS.items():
        cases.add(
            f"{name}{words}",
            [
                "%bits = load i64, ptr %in, align 1",
                *operand,
                "br label %each",
                "each:",
                "%at = phi i64 [ 0, %start ], [ %next, %each ]",
                "%sum = phi i64 [ 0, %start ], [ %more, %each ]",
                f"%q = getelementptr i64, ptr @{source}, i64 %at",
                f"%b = load {kind}, ptr %q, align 8",
                *lines,
                "%x = xor i64 %sum, %r",
                "%y = mul i64 %x, 1099511628211",
                "%z = lshr i64 %y, 29",
                "%more = xor i64 %y, %z",
                "%next = add i64 %at, 1",
                f"%done = icmp eq i64 %next, {len(table)}",
                "br i1 %done, label %end, label %each",
                "end:",
                *put(64, "%more"),
                "ret void",
            ],
        )


def settled(value="%v"):
    """Returns lines that set %r to the bits of a result. Each NaN becomes the same one, since
    processors give different ones."""
    return [
        f"%is = fcmp uno double {value}, {value}",
        f"%v.bits = bitcast double {value} to i64",
        "%r = select i1 %is, i64 9221120237041090560, i64 %v.bits",
    ]


def floats(cases):
    for name, table in (("doubles", DOUBLES), ("integers", INTEGERS)):
        items = ", ".join(f"i64 {it}" for it in table)
        cases.helpers.append(
            f"@{name} = private unnamed_addr constant [{len(table)} x i64] [{items}], align 8\n"
        )
    for op in "fadd fsub fmul fdiv".split():
        over_all(cases, op, DOUBLES, [f"%v = {op} double %a, %b", *settled()])
        over_all(cases, f"{op} turned", DOUBLES, [f"%v = {op} double %b, %a", *settled()])
        for text in ("0x41F0000000000000", "3.000000e+00", "0x3FB999999999999A", "-0.000000e+00"):
            cases.value(
                f"{op} double {text}",
                64,
                ["%d = bitcast i64 %a to double", f"%v = {op} double %d, {text}", *settled()],
            )
    # The sum has the rounded product, and not the exact one.
    cases.declare("double @llvm.arithmetic.fence.f64(double)")
    fence = "call double @llvm.arithmetic.fence.f64(double"
    for name, lines in (
        ("product and sum", ["%m = fmul double %a, %b", "%v = fadd double %m, %c"]),
        ("product and difference", ["%m = fmul double %a, %b", "%v = fsub double %m, %c"]),
        ("difference and product", ["%m = fmul double %a, %b", "%v = fsub double %c, %m"]),
        (
            "product in a fence",
            ["%w = fmul double %a, %b", f"%m = {fence} %w)", "%v = fadd double %m, %c"],
        ),
        ("sum and quotient", ["%m = fadd double %a, %b", "%v = fdiv double %m, %c"]),
    ):
        third = [
            "%k.p = getelementptr i8, ptr %in, i64 16",
            "%k.w = load i64, ptr %k.p, align 1",
            "%k = xor i64 %k.w, %at",
            f"%k.n = urem i64 %k, {len(DOUBLES)}",
            "%c.p = getelementptr i64, ptr @doubles, i64 %k.n",
            "%c = load double, ptr %c.p, align 8",
        ]
        over_all(cases, name, DOUBLES, [*third, *lines, *settled()])
    for condition in CONDITIONS:
        lines = [f"%t = fcmp {condition} double %a, %b", "%r = zext i1 %t to i64"]
        over_all(cases, f"fcmp {condition}", DOUBLES, lines)
        lines[0] = f"%t = fcmp {condition} double %a, 0.000000e+00"
        over_all(cases, f"fcmp {condition} 0", DOUBLES, lines)
    over_all(
        cases,
        "uitofp of each",
        INTEGERS,
        ["%s = add i64 %b, %bits", "%v = uitofp i64 %s to double", "%r = bitcast double %v to i64"],
    )
    for bits in (1, 8, 16, 32, 64):
        cases.value(
            f"uitofp i{bits}",
            64,
            [
                f"%n = {'freeze' if bits == 64 else 'trunc'} i64 %a"
                + (f" to i{bits}" if bits < 64 else ""),
                f"%v = uitofp i{bits} %n to double",
                "%r = bitcast double %v to i64",
            ],
        )
    moved(cases)


def moved(cases):
    """Adds operations that keep the bits of a float, or change only its sign: signs, choices,
    memory and calls."""
    double = "%d = bitcast i64 %a to double"
    end = "%r = bitcast double %v to i64"
    cases.declare("double @llvm.fabs.f64(double)")
    cases.value("fneg", 64, [double, "%v = fneg double %d", end])
    cases.value("fabs", 64, [double, "%v = call double @llvm.fabs.f64(double %d)", end])
    cases.value(
        "select double",
        64,
        [
            double,
            "%t = icmp ult i64 %b, %c",
            "%e = bitcast i64 %b to double",
            "%v = select i1 %t, double %d, double %e",
            end,
        ],
    )
    cases.add(
        "a float in memory",
        [
            "%p = getelementptr { i8, double, [2 x double] }, ptr %in, i64 0, i32 2, i64 1",
            "%v = load double, ptr %p, align 1",
            "%q = getelementptr i8, ptr %out, i64 5",
            "store double %v, ptr %q, align 1",
            "%w = alloca double, align 8",
            "store double %v, ptr %w, align 8",
            "%x = load i64, ptr %w, align 8",
            *put(64, "%x", 32),
            "ret void",
        ],
    )
    cases.helpers.append(
        "define internal double @choose(double %x, double %y, i64 %n) noinline {\nstart:\n"
        "  %t = icmp slt i64 %n, 0\n  br i1 %t, label %less, label %end\n"
        "less:\n  br label %end\n"
        "end:\n  %r = phi double [ %x, %start ], [ %y, %less ]\n  ret double %r\n}\n"
    )
    cases.value(
        "a float in a call",
        64,
        [
            double,
            "%e = bitcast i64 %b to double",
            "%v = call double @choose(double %d, double %e, i64 %c)",
            end,
        ],
    )
    cases.value(
        "a float in a struct",
        64,
        [
            double,
            "%s = insertvalue { double, i64 } { double 1.500000e+00, i64 5 }, double %d, 0",
            "%t = insertvalue { double, i64 } %s, i64 %b, 1",
            "%v = extractvalue { double, i64 } %t, 0",
            "%n = extractvalue { double, i64 } %t, 1",
            "%v.bits = bitcast double %v to i64",
            "%r = sub i64 %v.bits, %n",
        ],
    )
