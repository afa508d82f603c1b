"""Test functions in LLVM's IR for each instruction that the translator knows, with edge cases.

Each is `void @case(ptr %in, ptr %out)`. It takes numbers from the first 48 bytes at %in, three of
16 bytes, and bytes from the 192 after them. It writes its results to the 256 bytes at %out. No
result depends on undefined behaviour or poison, for any bytes at %in.
"""

WIDTHS = (8, 16, 32, 64)
ODD = (9, 12, 17, 24, 33, 40, 48, 56, 63)
CONDITIONS = "eq ne ult ule ugt uge slt sle sgt sge".split()
BYTES = 48


class Cases:
    """Collects functions, and the other parts of the module."""

    def __init__(self):
        self.functions, self.helpers, self.declared = [], [], set()

    def add(self, name, lines):
        """Adds a function with these lines, which begin with those of the first block."""
        body = "\n".join(it if it.endswith(":") else "  " + it for it in lines)
        self.functions.append(
            (name, f'define internal void @"{name}"(ptr %in, ptr %out) {{\nstart:\n{body}\n}}\n')
        )

    def value(self, name, bits, lines, result=None):
        """Adds a function that computes a number %r from %a, %b and %c, which have `bits` bits."""
        self.add(name, [*arguments(bits), *lines, *put(result or bits), "ret void"])

    def declare(self, text):
        self.declared.add("declare " + text)

    def module(self, layout, triple):
        """Returns the module. Its `kombilad_run` calls the function with a given number."""
        cases = "\n".join(f"    i32 {at}, label %c{at}" for at in range(len(self.functions)))
        calls = "\n".join(
            f'c{at}:\n  call void @"{name}"(ptr %in, ptr %out)\n  ret void'
            for at, (name, _) in enumerate(self.functions)
        )
        return "\n".join(
            [
                f'target datalayout = "{layout}"',
                f'target triple = "{triple}"',
                "@bytes = private unnamed_addr constant [40 x i8] "
                'c"0123456789\\00\\FF\\5C\\22abcdefghijklmnopqrstuvwxyz", align 1',
                *self.helpers,
                *(text for _, text in self.functions),
                "define void @kombilad_run(i32 %which, ptr %in, ptr %out) {\nstart:",
                f"  switch i32 %which, label %none [\n{cases}\n  ]\n{calls}\nnone:\n  ret void\n}}",
                *sorted(self.declared),
                "",
            ]
        )


def arguments(bits, names="abc"):
    """Returns lines that load %a, %b and %c, of any width."""
    held = next(it for it in (8, 16, 32, 64, 128) if it >= bits)
    lines = []
    for at, name in enumerate(names):
        lines.append(f"%{name}.p = getelementptr i8, ptr %in, i64 {16 * at}")
        whole = f"%{name}" if held == bits else f"%{name}.w"
        lines.append(f"{whole} = load i{held}, ptr %{name}.p, align 1")
        if held != bits:
            lines.append(f"%{name} = trunc i{held} %{name}.w to i{bits}")
    return lines


def put(bits, value="%r", at=0):
    """Returns lines that write a number of any width as 16 bytes."""
    name = value.strip("%")
    lines = [f"%{name}.at = getelementptr inbounds i8, ptr %out, i64 {at}"]
    if bits != 128:
        lines.append(f"%{name}.wide = zext i{bits} {value} to i128")
        value = f"%{name}.wide"
    return lines + [f"store i128 {value}, ptr %{name}.at, align 1"]


def arithmetic(cases):
    for bits in (*WIDTHS, *ODD, 128):
        kind = f"i{bits}"
        for op in "add sub mul and or xor".split():
            cases.value(f"{op} {kind}", bits, [f"%r = {op} {kind} %a, %b"])
        # C computes the result in a wider type. It has to be cut before it is compared, divided or
        # extended.
        for op in "add sub mul".split():
            cases.value(
                f"{op} {kind} compared",
                bits,
                [f"%s = {op} {kind} %a, %b", f"%r = icmp ult {kind} %s, %c"],
                1,
            )
        for op in "shl lshr ashr".split():
            counted = (
                [f"%n = urem {kind} %b, {bits}"] if bits < 128 else [f"%n = and {kind} %b, 127"]
            )
            cases.value(f"{op} {kind}", bits, [*counted, f"%r = {op} {kind} %a, %n"])
            for by in sorted({0, 1, bits // 2, bits - 1}):
                cases.value(f"{op} {kind} {by}", bits, [f"%r = {op} {kind} %a, {by}"])
        half = 1 << (bits - 1)
        for text in sorted({1, -1, 2, half - 1, -half, 0xFFFFFFFF % half}):
            for op in "add sub mul and or xor".split():
                cases.value(f"{op} {kind} {text}", bits, [f"%r = {op} {kind} %a, {text}"])
        # A constant as the first operand of a subtraction or a shift has the width of the type.
        for op in "sub shl lshr ashr".split():
            count = f"%n = urem {kind} %a, {bits}" if bits < 128 else f"%n = and {kind} %a, 127"
            for text in (1, 5, -3, half):
                cases.value(f"{op} {kind} {text}, n", bits, [count, f"%r = {op} {kind} {text}, %n"])
        for condition in CONDITIONS:
            cases.value(
                f"icmp {condition} {kind}", bits, [f"%r = icmp {condition} {kind} %a, %b"], 1
            )
            cases.value(
                f"icmp {condition} {kind} -2", bits, [f"%r = icmp {condition} {kind} %a, -2"], 1
            )
        cases.value(
            f"select {kind}",
            bits,
            [f"%t = icmp ugt {kind} %a, %b", f"%r = select i1 %t, {kind} %b, {kind} %c"],
        )
        cases.value(f"freeze {kind}", bits, [f"%r = freeze {kind} %a"])
    cases.value(
        "mul of two constants' width",
        64,
        ["%x = and i64 %a, 4294967295", "%y = mul i64 %x, 4294967295", "%r = add i64 %y, %b"],
    )


def division(cases):
    for bits in (*WIDTHS, *ODD, 128):
        kind = f"i{bits}"
        for op in ("udiv", "urem"):
            cases.value(f"{op} {kind}", bits, [f"%d = or {kind} %b, 1", f"%r = {op} {kind} %a, %d"])
            cases.value(f"{op} {kind} 10", bits, [f"%r = {op} {kind} %a, 10"])
            cases.value(f"{op} {kind} max", bits, [f"%r = {op} {kind} %a, -1"])
    for bits in WIDTHS:
        kind = f"i{bits}"
        for op in ("sdiv", "srem"):
            cases.value(
                f"{op} {kind}",
                bits,
                [
                    f"%n = ashr {kind} %a, 1",
                    f"%d = or {kind} %b, 1",
                    f"%r = {op} {kind} %n, %d",
                ],
            )


def checks(cases):
    """Adds the operations of 256 bits in an unproved module, which check whether a sum or a
    difference of 128 bits overflows."""
    for op in ("add", "sub"):
        for source in (64, 128):
            for condition in ("ugt", "ule", "ult", "uge"):
                cases.value(
                    f"{op} i256 of i{source} {condition}",
                    128,
                    [
                        f"%n = {f'trunc i128 %b to i{source}' if source < 128 else 'freeze i128 %b'}",
                        "%x = zext i128 %a to i256",
                        f"%y = zext i{source} %n to i256",
                        f"%z = {op} i256 %x, %y",
                        f"%r = icmp {condition} i256 %z, {(1 << 128) - 1}",
                    ],
                    1,
                )


def conversions(cases):
    widths = (1, *WIDTHS, *ODD, 128)
    for source in widths:
        for to in widths:
            if source < to:
                for op in ("zext", "sext"):
                    cases.value(
                        f"{op} i{source} i{to}", source, [f"%r = {op} i{source} %a to i{to}"], to
                    )
            elif source > to:
                cases.value(
                    f"trunc i{source} i{to}", source, [f"%r = trunc i{source} %a to i{to}"], to
                )
    for bits in (8, 16, 32, 64):
        # A chain of operations, in which the result of each has to be cut.
        cases.value(
            f"cut {bits}",
            bits,
            [
                f"%s = add i{bits} %a, %b",
                f"%w = zext i{bits} %s to i128",
                f"%x = sext i{bits} %s to i128",
                "%r = xor i128 %w, %x",
            ],
            128,
        )


def truths(cases):
    compare = ["%x = icmp ult i64 %a, %b", "%y = icmp slt i64 %b, %c"]
    for op in ("and", "or", "xor"):
        cases.value(f"{op} i1", 64, [*compare, f"%r = {op} i1 %x, %y"], 1)
        cases.value(f"{op} i1 of bits", 1, [f"%r = {op} i1 %a, %b"])
    cases.value("not i1", 1, ["%r = xor i1 %a, true"])
    cases.value("not i1 by false", 1, ["%r = xor i1 %a, false"])
    for first, second in (("%y", "false"), ("true", "%y"), ("%y", "true"), ("false", "%y")):
        cases.value(
            f"select i1 {first} {second}",
            64,
            [*compare, f"%r = select i1 %x, i1 {first}, i1 {second}"],
            1,
        )
    for condition in CONDITIONS:
        cases.value(f"icmp {condition} i1", 1, [f"%r = icmp {condition} i1 %a, %b"])


def intrinsics(cases):
    for bits in WIDTHS:
        kind = f"i{bits}"
        for name in "umin umax smin smax usub.sat uadd.sat".split():
            cases.declare(f"{kind} @llvm.{name}.{kind}({kind}, {kind})")
            cases.value(
                f"{name} {kind}",
                bits,
                [f"%r = call {kind} @llvm.{name}.{kind}({kind} %a, {kind} %b)"],
            )
        for name in ("fshl", "fshr"):
            cases.declare(f"{kind} @llvm.{name}.{kind}({kind}, {kind}, {kind})")
            call = f"call {kind} @llvm.{name}.{kind}({kind} %a, {kind} %b, {kind} %c)"
            cases.value(f"{name} {kind}", bits, [f"%r = {call}"])
            call = f"call {kind} @llvm.{name}.{kind}({kind} %a, {kind} %a, {kind} 5)"
            cases.value(f"{name} {kind} 5", bits, [f"%r = {call}"])
        for name in ("bswap", "bitreverse", "ctpop"):
            if name == "bswap" and bits == 8:
                continue
            cases.declare(f"{kind} @llvm.{name}.{kind}({kind})")
            cases.value(
                f"{name} {kind}", bits, [f"%r = call {kind} @llvm.{name}.{kind}({kind} %a)"]
            )
        for name in ("ctlz", "cttz", "abs"):
            cases.declare(f"{kind} @llvm.{name}.{kind}({kind}, i1)")
            call = f"call {kind} @llvm.{name}.{kind}({kind} %a, i1 false)"
            cases.value(f"{name} {kind}", bits, [f"%r = {call}"])
            low = f"call {kind} @llvm.{name}.{kind}({kind} %m, i1 false)"
            cases.value(f"{name} {kind} low", bits, [f"%m = and {kind} %a, 3", f"%r = {low}"])
        for name in ("ucmp", "scmp"):
            for to in (2, 8, 32):
                called = f"@llvm.{name}.i{to}.{kind}"
                cases.declare(f"i{to} {called}({kind}, {kind})")
                for other in ("%b", "%a"):
                    call = f"call i{to} {called}({kind} %a, {kind} {other})"
                    cases.value(f"{name} i{to} {kind} {other}", bits, [f"%r = {call}"], to)
        for name in ("uadd", "usub", "umul", "sadd", "ssub"):
            pair = f"{{ {kind}, i1 }}"
            cases.declare(f"{pair} @llvm.{name}.with.overflow.{kind}({kind}, {kind})")
            cases.value(
                f"{name}.with.overflow {kind}",
                bits,
                [
                    f"%s = call {pair} @llvm.{name}.with.overflow.{kind}({kind} %a, {kind} %b)",
                    f"%v = extractvalue {pair} %s, 0",
                    f"%o = extractvalue {pair} %s, 1",
                    *put(bits, "%v", 32),
                    f"%r = zext i1 %o to {kind}",
                ],
            )
    for name in ("umin", "umax", "usub.sat"):
        cases.declare(f"i128 @llvm.{name}.i128(i128, i128)")
        cases.value(f"{name} i128", 128, [f"%r = call i128 @llvm.{name}.i128(i128 %a, i128 %b)"])
    cases.declare("i128 @llvm.abs.i128(i128, i1)")
    cases.value("abs i128", 128, ["%r = call i128 @llvm.abs.i128(i128 %a, i1 false)"])
    cases.declare("i1 @llvm.expect.i1(i1, i1)")
    cases.value(
        "expect",
        64,
        ["%t = icmp eq i64 %a, %b", "%r = call i1 @llvm.expect.i1(i1 %t, i1 true)"],
        1,
    )


def copied(cases):
    """Adds copies of memory with constant and variable lengths, some of which overlap."""
    cases.declare("void @llvm.memcpy.p0.p0.i64(ptr, ptr, i64, i1)")
    cases.declare("void @llvm.memmove.p0.p0.i64(ptr, ptr, i64, i1)")
    cases.declare("void @llvm.memset.p0.i64(ptr, i8, i64, i1)")
    source = ["%s = getelementptr i8, ptr %in, i64 48", "%a = load i64, ptr %in, align 1"]
    for size in (0, 1, 7, 16, 33):
        for name in ("memcpy", "memmove"):
            call = f"call void @llvm.{name}.p0.p0.i64(ptr %out, ptr %s, i64 {size}, i1 false)"
            cases.add(f"{name} {size}", [*source, call, "ret void"])
        call = f"call void @llvm.memset.p0.i64(ptr %out, i8 %b, i64 {size}, i1 false)"
        cases.add(f"memset {size}", [*source, "%b = trunc i64 %a to i8", call, "ret void"])
    length = [*source, "%n = and i64 %a, 63"]
    cases.add(
        "memcpy n",
        [
            *length,
            "call void @llvm.memcpy.p0.p0.i64(ptr %out, ptr %s, i64 %n, i1 false)",
            "ret void",
        ],
    )
    cases.add(
        "memset n",
        [*length, "call void @llvm.memset.p0.i64(ptr %out, i8 77, i64 %n, i1 false)", "ret void"],
    )
    place = ["%b.p = getelementptr i8, ptr %in, i64 16", "%b = load i64, ptr %b.p, align 1"]
    place += ["%m = and i64 %b, 63", "%t = getelementptr i8, ptr %s, i64 %m"]
    for to, start in (("%t", "%s"), ("%s", "%t")):
        for size in ("%n", "20"):
            call = f"call void @llvm.memmove.p0.p0.i64(ptr {to}, ptr {start}, i64 {size}, i1 false)"
            cases.add(f"memmove {to} {start} {size}", [*length, *place, call, "ret void"])
    for name, call in (
        ("memcpy", "memcpy.p0.p0.i64(ptr %none, ptr %none, i64 %z, i1 false)"),
        ("memmove", "memmove.p0.p0.i64(ptr %none, ptr %none, i64 %z, i1 false)"),
        ("memset", "memset.p0.i64(ptr %none, i8 1, i64 %z, i1 false)"),
    ):
        lines = ["%none = inttoptr i64 1 to ptr", "%z = and i64 %a, 0", f"call void @llvm.{call}"]
        cases.add(f"{name} of none", [*source, *lines, "ret void"])


def order(cases):
    """Adds loads of memory that changes afterwards. They must give the value before the change."""
    cases.helpers.append(
        "define internal void @write(ptr %p, i64 %v) noinline {\nstart:\n"
        "  store i64 %v, ptr %p, align 1\n  ret void\n}\n"
        "define internal i64 @exchange(ptr %p, i64 %v) noinline {\nstart:\n"
        "  %old = load i64, ptr %p, align 1\n  store i64 %v, ptr %p, align 1\n  ret i64 %old\n}\n"
    )
    head = ["%p = getelementptr i8, ptr %in, i64 48", "%q = getelementptr i8, ptr %in, i64 72"]
    head += ["%a = load i64, ptr %in, align 1", "%old = load i64, ptr %p, align 1"]
    changes = {
        "store": ["store i64 %a, ptr %p, align 1"],
        "store of a byte": ["store i8 7, ptr %p, align 1"],
        "call": ["call void @write(ptr %p, i64 %a)"],
        "call of its value": ["%u = call i64 @exchange(ptr %p, i64 %old)"],
        "memset": ["call void @llvm.memset.p0.i64(ptr %p, i8 9, i64 8, i1 false)"],
        "memset n": [
            "%n = and i64 %a, 15",
            "call void @llvm.memset.p0.i64(ptr %p, i8 9, i64 %n, i1 false)",
        ],
        "memcpy": ["call void @llvm.memcpy.p0.p0.i64(ptr %p, ptr %q, i64 8, i1 false)"],
        "memmove": ["call void @llvm.memmove.p0.p0.i64(ptr %p, ptr %in, i64 16, i1 false)"],
        "two stores": ["store i64 %a, ptr %q, align 1", "store i16 513, ptr %p, align 1"],
    }
    for name, lines in changes.items():
        tail = [*put(64, "%old"), "ret void"]
        cases.add(f"load before {name}", [*head, *lines, *tail])
        # The load may also be a part of an expression.
        more = ["%sum = add i64 %old, %a", *lines, *put(64, "%sum"), "ret void"]
        cases.add(f"sum before {name}", [*head, *more])
    cases.add(
        "load after store",
        [
            *head,
            "store i64 %a, ptr %p, align 1",
            "%r = load i64, ptr %p, align 1",
            *put(64),
            "ret void",
        ],
    )
    cases.add(
        "load of an array before its store",
        [
            "%v = alloca i64, align 8",
            "%a = load i64, ptr %in, align 1",
            "store i64 5, ptr %v, align 8",
            "%old = load i64, ptr %v, align 8",
            "store i64 %a, ptr %v, align 8",
            "%new = load i64, ptr %v, align 8",
            *put(64, "%old"),
            *put(64, "%new", 16),
            "ret void",
        ],
    )
    # A load after one call, whose value is an argument of the next one.
    cases.add(
        "loads in calls",
        [
            *head,
            "%x = call i64 @exchange(ptr %p, i64 %a)",
            "%next = load i64, ptr %p, align 1",
            "%y = call i64 @exchange(ptr %q, i64 %next)",
            "%r = sub i64 %x, %y",
            *put(64),
            "ret void",
        ],
    )
    # On an edge: a phi has a value from before the store.
    cases.add(
        "load before a store, on an edge",
        [
            *head,
            "store i64 %a, ptr %p, align 1",
            "%t = icmp ult i64 %a, 1000",
            "br i1 %t, label %less, label %end",
            "less:",
            "store i64 3, ptr %q, align 1",
            "br label %end",
            "end:",
            "%r = phi i64 [ %old, %start ], [ %a, %less ]",
            *put(64),
            "ret void",
        ],
    )
