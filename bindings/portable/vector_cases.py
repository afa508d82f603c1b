"""Test functions in LLVM's IR for vectors, like those of instruction_cases.py."""

from instruction_cases import put


def vectors(cases):
    """Adds vectors of bytes and of truths."""
    short(cases)
    for count in (16, 32, 64):
        kind, truths, name = f"<{count} x i8>", f"<{count} x i1>", f"v{count}"
        head = ["%p = getelementptr i8, ptr %in, i64 49", "%q = getelementptr i8, ptr %in, i64 113"]
        head += [f"%v = load {kind}, ptr %p, align 1", f"%w = load {kind}, ptr %q, align 1"]
        end = [f"store {kind} %r, ptr %out, align 1", "ret void"]

        def add(what, *lines):
            cases.add(f"{name} {what}", [*head, *lines, *end])

        def mask(what, *lines):
            last = [f"%r = bitcast {truths} %t to i{count}", *put(count), "ret void"]
            cases.add(f"{name} {what}", [*head, *lines, *last])

        for op in "and or xor add sub".split():
            add(op, f"%r = {op} {kind} %v, %w")
        for by in (1, 4, 7):
            for op in "shl lshr ashr".split():
                add(f"{op} {by}", f"%r = {op} {kind} %v, splat (i8 {by})")
        for condition in "eq ne ult ule ugt uge slt sle sgt sge".split():
            mask(f"icmp {condition}", f"%t = icmp {condition} {kind} %v, %w")
        mask("icmp of zero", f"%t = icmp slt {kind} %v, zeroinitializer")
        mask("icmp of a constant", f"%t = icmp ult {kind} %v, splat (i8 -112)")
        two = [f"%t1 = icmp ult {kind} %v, %w", f"%t2 = icmp slt {kind} %v, %w"]
        for op in "and or xor".split():
            mask(f"{op} of truths", *two, f"%t = {op} {truths} %t1, %t2")
        add("sext", f"%t = icmp ult {kind} %v, %w", f"%r = sext {truths} %t to {kind}")
        add("zext", f"%t = icmp ult {kind} %v, %w", f"%r = zext {truths} %t to {kind}")
        cases.declare(f"{kind} @llvm.usub.sat.v{count}i8({kind}, {kind})")
        add("usub.sat", f"%r = call {kind} @llvm.usub.sat.v{count}i8({kind} %v, {kind} %w)")
        for call in ("umin", "umax"):
            cases.declare(f"{kind} @llvm.{call}.v{count}i8({kind}, {kind})")
            add(call, f"%r = call {kind} @llvm.{call}.v{count}i8({kind} %v, {kind} %w)")
        truth = f"%t = icmp ult {kind} %v, %w"
        add("select of each", truth, f"%r = select {truths} %t, {kind} %w, {kind} %v")
        cases.declare(f"i8 @llvm.vector.reduce.or.v{count}i8({kind})")
        reduced = f"%r = call i8 @llvm.vector.reduce.or.v{count}i8({kind} %x)"
        for by in ("1", "-128", "16"):
            last = [f"%x = and {kind} %v, splat (i8 {by})", reduced, *put(8), "ret void"]
            cases.add(f"{name} reduce.or {by}", [*head, *last])
        choice = ["%a = load i8, ptr %in, align 1", "%t = icmp slt i8 %a, 0"]
        add("select", *choice, f"%r = select i1 %t, {kind} %v, {kind} %w")
        items = ", ".join(f"i8 {(it * 37) % 256 - 128}" for it in range(count))
        add("constant", f"%r = xor {kind} %v, <{items}>")
        for at in sorted({0, 7, 15, count - 1}):
            add(
                f"insertelement {at}", *choice[:1], f"%r = insertelement {kind} %v, i8 %a, i64 {at}"
            )
            cases.add(
                f"{name} extractelement {at}",
                [*head, f"%r = extractelement {kind} %v, i64 {at}", *put(8), "ret void"],
            )
            places = ", ".join([f"i32 {at}"] * count)
            add(
                f"splat {at}",
                f"%r = shufflevector {kind} %v, {kind} poison, <{count} x i32> <{places}>",
            )
        chosen = f"%r = shufflevector {kind} %v, {kind} poison, <{count} x i32> zeroinitializer"
        add("splat of the first", chosen)
        for start in sorted({*range(1, 17), count - 3, count - 2, count - 1, count}):
            places = ", ".join(f"i32 {start + it}" for it in range(count))
            add(
                f"shufflevector {start}",
                f"%s = shufflevector {kind} %v, {kind} %w, <{count} x i32> <{places}>",
                f"%r = xor {kind} %s, %v",
            )
        places = ", ".join(f"i32 {it}" for it in range(15, count + 15))
        add(
            "shufflevector of zero",
            f"%r = shufflevector {kind} %v, {kind} zeroinitializer, <{count} x i32> <{places}>",
        )
        for chunk in range(0, count, 16):
            places = ", ".join(f"i32 {chunk + it}" for it in range(16))
            cases.add(
                f"{name} chunk {chunk}",
                [
                    *head,
                    f"%r = shufflevector {kind} %v, {kind} poison, <16 x i32> <{places}>",
                    "store <16 x i8> %r, ptr %out, align 1",
                    "ret void",
                ],
            )
        cases.add(
            f"{name} load before store",
            [
                *head,
                f"store {kind} %w, ptr %p, align 1",
                f"store {kind} %v, ptr %q, align 1",
                "ret void",
            ],
        )
        cases.add(
            f"{name} phi",
            [
                *head,
                *choice,
                "br i1 %t, label %less, label %end",
                "less:",
                f"%x = add {kind} %v, %w",
                "br label %end",
                "end:",
                f"%r = phi {kind} [ %w, %start ], [ %x, %less ]",
                *end,
            ],
        )
    sixteen = "<16 x i8>"
    cases.add(
        "a vector as a number, and back",
        [
            "%p = getelementptr i8, ptr %in, i64 49",
            f"%v = load {sixteen}, ptr %p, align 1",
            f"%n = bitcast {sixteen} %v to i128",
            "%r = add i128 %n, 1",
            *put(128),
            f"%w = bitcast i128 %r to {sixteen}",
            "%q = getelementptr i8, ptr %out, i64 16",
            f"store {sixteen} %w, ptr %q, align 1",
            "ret void",
        ],
    )
    cases.declare(f"{sixteen} @llvm.x86.ssse3.pshuf.b.128({sixteen}, {sixteen})")
    cases.add(
        "pshufb",
        [
            "%p = getelementptr i8, ptr %in, i64 49",
            "%q = getelementptr i8, ptr %in, i64 113",
            f"%v = load {sixteen}, ptr %p, align 1",
            f"%w = load {sixteen}, ptr %q, align 1",
            f"%r = call {sixteen} @llvm.x86.ssse3.pshuf.b.128({sixteen} %v, {sixteen} %w)",
            f"store {sixteen} %r, ptr %out, align 1",
            "ret void",
        ],
    )


def short(cases):
    """Adds vectors of less than sixteen bytes."""
    for count in (2, 4, 8):
        kind, truths, name = f"<{count} x i8>", f"<{count} x i1>", f"v{count}"
        head = ["%p = getelementptr i8, ptr %in, i64 49", "%q = getelementptr i8, ptr %in, i64 113"]
        head += [f"%v = load {kind}, ptr %p, align 1", f"%w = load {kind}, ptr %q, align 1"]
        for op in "and or xor add sub".split():
            last = [f"%r = {op} {kind} %v, %w", f"store {kind} %r, ptr %out, align 1", "ret void"]
            cases.add(f"{name} {op}", [*head, *last])
        for condition in "eq ne ult slt".split():
            for other in ("%w", "splat (i8 92)", "zeroinitializer"):
                found = [
                    f"%t1 = icmp {condition} {kind} %v, {other}",
                    f"%t2 = icmp ult {kind} %w, splat (i8 32)",
                    f"%t = or {truths} %t1, %t2",
                    f"%r = bitcast {truths} %t to i{count}",
                ]
                cases.add(f"{name} {condition} {other}", [*head, *found, *put(count), "ret void"])
        items = ", ".join(f"i8 {it * 37 - 100}" for it in range(count))
        last = [f"%r = xor {kind} %v, <{items}>", f"store {kind} %r, ptr %out, align 1", "ret void"]
        cases.add(f"{name} constant", [*head, *last])


def lanes(cases):
    """Adds vectors of wider numbers, of sixteen bytes in all."""
    pair = ["%a = load i64, ptr %in, align 1", "%b.p = getelementptr i8, ptr %in, i64 16"]
    pair += ["%b = load i64, ptr %b.p, align 1"]
    pair += ["%x = insertelement <2 x i64> <i64 poison, i64 7>, i64 %a, i64 0"]
    pair += ["%y = insertelement <2 x i64> %x, i64 %b, i64 1"]
    end = ["store <16 x i8> %r, ptr %out, align 1", "ret void"]
    for count, bits in ((8, 16), (4, 32), (2, 64)):
        kind = f"<{count} x i{bits}>"
        head = [
            *pair,
            f"%v = bitcast <2 x i64> %x to {kind}",
            f"%w = bitcast <2 x i64> %y to {kind}",
        ]
        tail = [f"%r = bitcast {kind} %z to <16 x i8>", *end]
        items = ", ".join(f"i{bits} {it * 99 + 1}" for it in range(count))
        for op, other in (
            ("add", "%w"),
            ("sub", "%w"),
            ("mul", "%w"),
            ("mul", f"<{items}>"),
            ("udiv", f"splat (i{bits} 100)"),
            ("urem", f"<{items}>"),
            ("shl", f"splat (i{bits} {bits // 2})"),
            ("lshr", "splat (i{} 3)".format(bits)),
            ("xor", "zeroinitializer"),
        ):
            cases.add(f"{kind} {op} {other}", [*head, f"%z = {op} {kind} %v, {other}", *tail])
        places = ", ".join(f"i32 {it // 2 + count * (it % 2)}" for it in range(count))
        mixed = f"%z = shufflevector {kind} %v, {kind} %w, <{count} x i32> <{places}>"
        cases.add(f"{kind} shufflevector", [*head, mixed, *tail])
        last = f"%n = extractelement {kind} %w, i64 {count - 1}"
        cases.add(f"{kind} extractelement", [*head, last, *put(bits, "%n"), "ret void"])
