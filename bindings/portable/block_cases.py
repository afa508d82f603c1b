"""Test functions in LLVM's IR for memory, blocks, structs and calls, like those of
instruction_cases.py."""

from instruction_cases import put


def places(cases):
    """Adds loads and stores of each type, and addresses by indices."""
    for bits in (8, 16, 24, 32, 40, 48, 56, 64, 128):
        for at in (48, 49, 55):
            cases.add(
                f"load i{bits} {at}",
                [
                    f"%p = getelementptr i8, ptr %in, i64 {at}",
                    f"%r = load i{bits}, ptr %p, align 1",
                    *put(bits),
                    "%q = getelementptr i8, ptr %out, i64 33",
                    f"store i{bits} %r, ptr %q, align 1",
                    "ret void",
                ],
            )
    index = ["%a = load i64, ptr %in, align 1", "%n = and i64 %a, 7", "%m = sub i64 0, %n"]
    index += ["%i = trunc i64 %n to i32", "%j = sub i32 0, %i", "%k = trunc i64 %n to i8"]
    for name, source, rest in (
        ("bytes", "i8", "i64 %n"),
        ("bytes back", "i8", "i64 %m"),
        ("numbers", "i64", "i64 %n"),
        ("numbers back", "i16", "i64 %m"),
        ("by a narrow index", "i16", "i32 %i"),
        ("by a narrow index back", "i16", "i32 %j"),
        ("by a byte", "i32", "i8 %k"),
        ("in an array", "[4 x i16]", "i64 %n, i64 1"),
        ("in an array, twice", "[4 x i16]", "i64 1, i64 %n"),
        ("in a struct", "{ i8, i32, i64, i16 }", "i64 1, i32 2"),
        ("in a struct, by a number", "{ i8, i32, i64, i16 }", "i64 %n, i32 3"),
        ("back", "i8", "i64 -9"),
        ("at a type of three bytes", "i24", "i64 %n"),
    ):
        cases.add(
            f"place {name}",
            [
                *index,
                "%base = getelementptr i8, ptr %in, i64 64",
                f"%p = getelementptr {source}, ptr %base, {rest}",
                "%x = ptrtoint ptr %p to i64",
                "%y = ptrtoaddr ptr %base to i64",
                "%r = sub i64 %x, %y",
                *put(64),
                "ret void",
            ],
        )
    for size in (1, 3, 8, 24, 64):
        cases.add(
            f"array of {size}",
            [
                f"%v = alloca [{size} x i8], align {8 if size >= 8 else 1}",
                "%before = alloca [16 x i8], align 16",
                f"call void @llvm.memset.p0.i64(ptr %v, i8 3, i64 {size}, i1 false)",
                "call void @llvm.memset.p0.i64(ptr %before, i8 4, i64 16, i1 false)",
                "%a = load i8, ptr %in, align 1",
                f"%last = getelementptr inbounds i8, ptr %v, i64 {size - 1}",
                "store i8 %a, ptr %last, align 1",
                f"call void @llvm.memcpy.p0.p0.i64(ptr %out, ptr %v, i64 {size}, i1 false)",
                "%end = getelementptr i8, ptr %out, i64 64",
                "call void @llvm.memcpy.p0.p0.i64(ptr %end, ptr %before, i64 16, i1 false)",
                "%x = ptrtoint ptr %before to i64",
                "%r = and i64 %x, 15",
                *put(64, "%r", 96),
                "ret void",
            ],
        )
    head = ["%p = getelementptr i8, ptr %in, i64 64", "%a = load i64, ptr %in, align 1"]
    head += ["%n = and i64 %a, 63", "%q = getelementptr i8, ptr %in, i64 %n"]
    for condition in "eq ne ult ule ugt uge".split():
        lines = [*head, f"%r = icmp {condition} ptr %p, %q", *put(1), "ret void"]
        cases.add(f"icmp {condition} ptr", lines)
    cases.add(
        "pointers in memory",
        [
            *head,
            "%v = alloca [2 x ptr], align 8",
            "%second = getelementptr i8, ptr %v, i64 8",
            "store ptr %q, ptr %second, align 8",
            "store ptr null, ptr %v, align 8",
            "%back = load ptr, ptr %second, align 8",
            "%none = load ptr, ptr %v, align 8",
            "%is = icmp eq ptr %none, null",
            "%r = load i8, ptr %back, align 1",
            *put(8),
            *put(1, "%is", 16),
            "ret void",
        ],
    )
    cases.add(
        "a constant's bytes",
        [
            *head,
            "%i = and i64 %a, 31",
            "%at = getelementptr i8, ptr @bytes, i64 %i",
            "%r = load i64, ptr %at, align 1",
            *put(64),
            "%s = load i32, ptr getelementptr inbounds (i8, ptr @bytes, i64 9), align 1",
            *put(32, "%s", 16),
            "ret void",
        ],
    )
    cases.add(
        "a choice of places",
        [
            *head,
            "%t = icmp ult i64 %a, 9",
            "%c = select i1 %t, ptr %p, ptr %q",
            "%r = load i8, ptr %c, align 1",
            *put(8),
            "ret void",
        ],
    )


def blocks(cases):
    """Adds switches, and loops in which a phi takes the value that another phi had."""
    head = ["%a = load i64, ptr %in, align 1", "%b.p = getelementptr i8, ptr %in, i64 16"]
    head += ["%b = load i64, ptr %b.p, align 1", "%n = and i64 %a, 15", "br label %loop", "loop:"]
    tail = ["%more = icmp ult i64 %i.next, %n", "br i1 %more, label %loop, label %end", "end:"]
    count = ["%i = phi i64 [ 0, %start ], [ %i.next, %loop ]"]
    step = ["%i.next = add i64 %i, 1"]
    loops = {
        "swap": (
            [
                "%x = phi i64 [ %a, %start ], [ %y, %loop ]",
                "%y = phi i64 [ %b, %start ], [ %x, %loop ]",
            ],
            [],
        ),
        "fibonacci": (
            [
                "%x = phi i64 [ %a, %start ], [ %y, %loop ]",
                "%y = phi i64 [ %b, %start ], [ %s, %loop ]",
            ],
            ["%s = add i64 %x, %y"],
        ),
        "crossed sums": (
            [
                "%x = phi i64 [ %a, %start ], [ %s, %loop ]",
                "%y = phi i64 [ %b, %start ], [ %t, %loop ]",
            ],
            ["%s = add i64 %y, 3", "%t = mul i64 %x, 5"],
        ),
        "the old one": (
            [
                "%x = phi i64 [ %a, %start ], [ %i, %loop ]",
                "%y = phi i64 [ %b, %start ], [ %x, %loop ]",
            ],
            [],
        ),
        "the old one, the other way": (
            [
                "%y = phi i64 [ %b, %start ], [ %x, %loop ]",
                "%x = phi i64 [ %a, %start ], [ %i, %loop ]",
            ],
            [],
        ),
        "both of one": (
            [
                "%x = phi i64 [ %a, %start ], [ %s, %loop ]",
                "%y = phi i64 [ %b, %start ], [ %s, %loop ]",
            ],
            ["%s = xor i64 %y, %i"],
        ),
    }
    for name, (phis, lines) in loops.items():
        for first in (count + phis, phis + count):
            cases.add(
                f"loop {name} {first[0][:2]}",
                [
                    *head,
                    *first,
                    *lines,
                    *step,
                    *tail,
                    *put(64, "%x"),
                    *put(64, "%y", 16),
                    "ret void",
                ],
            )
    three = [
        "%x = phi i64 [ %a, %start ], [ %y, %loop ]",
        "%y = phi i64 [ %b, %start ], [ %z, %loop ]",
        "%z = phi i64 [ 7, %start ], [ %x, %loop ]",
    ]
    ends = [*put(64, "%x"), *put(64, "%y", 16), *put(64, "%z", 32), "ret void"]
    cases.add("loop of three", [*head, *count, *three, *step, *tail, *ends])
    cases.add("loop of three, last", [*head, *three, *count, *step, *tail, *ends])
    cases.add(
        "loop over a branch",
        [
            *head,
            "%i = phi i64 [ 0, %start ], [ %i.next, %join ]",
            "%x = phi i64 [ %a, %start ], [ %z, %join ]",
            "%odd = trunc i64 %x to i1",
            "br i1 %odd, label %first, label %second",
            "first:",
            "%u = mul i64 %x, 3",
            "br label %join",
            "second:",
            "%v = lshr i64 %x, 1",
            "br label %join",
            "join:",
            "%z = phi i64 [ %u, %first ], [ %v, %second ]",
            "%i.next = add i64 %i, 1",
            "%more = icmp ult i64 %i.next, %n",
            "br i1 %more, label %loop, label %end",
            "end:",
            *put(64, "%z"),
            "ret void",
        ],
    )
    for bits in (1, 8, 16, 32, 64):
        top = 1 << (bits - 1)
        values = [0] if bits == 1 else [0, 1, 5, -1, top - 1, -top]
        labels = [f"%x{at % 4}" for at in range(len(values))]
        cases.add(
            f"switch i{bits}",
            [
                "%w = load i64, ptr %in, align 1",
                f"%a = trunc i64 %w to i{bits}" if bits < 64 else "%a = add i64 %w, 0",
                f"switch i{bits} %a, label %other [",
                *(
                    f"  i{bits} {'false' if bits == 1 else value}, label {label}"
                    for value, label in zip(values, labels)
                ),
                "]",
                *(
                    line
                    for label in sorted(set(labels))
                    for line in (f"{label[1:]}:", "br label %end")
                ),
                "other:",
                "br label %end",
                "end:",
                "%r = phi i64 [ 99, %other ], "
                + ", ".join(f"[ {int(it[2:]) + 1}, {it} ]" for it in sorted(set(labels))),
                *put(64),
                "ret void",
            ],
        )
    cases.add(
        "freeze of what is undefined",
        [
            "%a = load i64, ptr %in, align 1",
            "%t = icmp ult i64 %a, 20",
            "br i1 %t, label %less, label %end",
            "less:",
            "br label %end",
            "end:",
            "%u = phi i64 [ undef, %start ], [ %a, %less ]",
            "%f = freeze i64 %u",
            "%x = mul i64 %f, 3",
            "%y = add i64 %f, %f",
            "%r = sub i64 %x, %y",
            "%s = sub i64 %r, %f",
            *put(64, "%s"),
            "ret void",
        ],
    )
    cases.add(
        "switch to one block",
        [
            "%a = load i8, ptr %in, align 1",
            "switch i8 %a, label %end [",
            "  i8 1, label %end",
            "  i8 2, label %end",
            "  i8 3, label %other",
            "]",
            "other:",
            "br label %end",
            "end:",
            "%r = phi i8 [ %a, %start ], [ %a, %start ], [ %a, %start ], [ 50, %other ]",
            *put(8),
            "ret void",
        ],
    )


def copies(cases):
    """Adds copies of eight bytes as a pointer, although they are none. They need 64 bits on every
    processor."""
    pair = "{ ptr, i64 }"
    cases.helpers.append(
        "define internal ptr @one_of(ptr %p, i1 %t, ptr %other) noinline {\nstart:\n"
        "  br i1 %t, label %more, label %end\nmore:\n  %x = load ptr, ptr %other, align 1\n"
        "  br label %end\nend:\n  %r = phi ptr [ %p, %start ], [ %x, %more ]\n  ret ptr %r\n}\n"
        "define internal void @put_twice(ptr %value, ptr %to) noinline {\nstart:\n"
        "  store ptr %value, ptr %to, align 1\n  %next = getelementptr i8, ptr %to, i64 8\n"
        "  store ptr %value, ptr %next, align 1\n  ret void\n}\n"
        f"define internal {pair} @with(ptr %value, i64 %n) noinline {{\nstart:\n"
        f"  %p = insertvalue {pair} poison, ptr %value, 0\n"
        f"  %q = insertvalue {pair} %p, i64 %n, 1\n  ret {pair} %q\n}}\n"
    )
    head = ["%v = load ptr, ptr %in, align 1", "%q = getelementptr i8, ptr %in, i64 8"]
    head += ["%w = load ptr, ptr %q, align 1", "%a = load i64, ptr %q, align 1"]
    head += ["%t = icmp ult i64 %a, 77"]
    end = ["store ptr %r, ptr %out, align 1", "ret void"]
    for name, lines in (
        ("read and written", ["%r = freeze ptr %v"]),
        ("by a choice", ["%r = select i1 %t, ptr %v, ptr %w"]),
        ("or null", ["%r = select i1 %t, ptr %v, ptr null"]),
        ("from a call", ["%r = call ptr @one_of(ptr %v, i1 %t, ptr %q)"]),
        (
            "in a struct",
            [f"%s = call {pair} @with(ptr %v, i64 %a)", f"%r = extractvalue {pair} %s, 0"],
        ),
        (
            "by a phi",
            [
                "br i1 %t, label %less, label %end",
                "less:",
                "br label %end",
                "end:",
                "%r = phi ptr [ %v, %start ], [ %w, %less ]",
            ],
        ),
        (
            "in turn",
            [
                "br label %loop",
                "loop:",
                "%r = phi ptr [ %v, %start ], [ %other, %loop ]",
                "%other = phi ptr [ %w, %start ], [ %r, %loop ]",
                "%n = phi i64 [ 0, %start ], [ %m, %loop ]",
                "%m = add i64 %n, 1",
                "%is = icmp ugt i64 %n, 2",
                "br i1 %is, label %end, label %loop",
                "end:",
            ],
        ),
    ):
        cases.add(f"eight bytes {name}", [*head, *lines, *end])
    cases.add(
        "eight bytes to a call", [*head, "call void @put_twice(ptr %v, ptr %out)", "ret void"]
    )
    cases.add(
        "a number of what is copied",
        [
            *head,
            "store ptr %v, ptr %out, align 1",
            "%r = ptrtoint ptr %v to i64",
            *put(64, "%r", 8),
            "ret void",
        ],
    )
    cases.add(
        "a pointer that is copied and used",
        [
            "%v.p = alloca [2 x ptr], align 8",
            "%w.p = getelementptr i8, ptr %v.p, i64 8",
            "store ptr %in, ptr %v.p, align 8",
            "%back = load ptr, ptr %v.p, align 8",
            "store ptr %back, ptr %w.p, align 8",
            "%again = load ptr, ptr %w.p, align 8",
            "%is = icmp eq ptr %back, %again",
            "%at = getelementptr i8, ptr %back, i64 3",
            "%r = load i8, ptr %at, align 1",
            *put(8),
            *put(1, "%is", 16),
            "call void @llvm.memcpy.p0.p0.i64(ptr %out, ptr %back, i64 5, i1 false)",
            "ret void",
        ],
    )


def calls(cases):
    """Adds structs, calls of the module's own functions, and the allocator."""
    cases.helpers.append(
        "define internal { i64, i8 } @both(i64 %a, i8 zeroext %b, i1 zeroext %c) noinline {\nstart:\n"
        "  %x = select i1 %c, i64 %a, i64 7\n"
        "  %p = insertvalue { i64, i8 } poison, i64 %x, 0\n"
        "  %q = insertvalue { i64, i8 } %p, i8 %b, 1\n  ret { i64, i8 } %q\n}\n"
        "define internal i64 @sum_to(i64 %n, i64 %unused) noinline {\nstart:\n"
        "  %t = icmp eq i64 %n, 0\n  br i1 %t, label %end, label %more\nmore:\n"
        "  %m = sub i64 %n, 1\n  %s = call i64 @sum_to(i64 %m, i64 %n)\n  %r = add i64 %s, %n\n"
        "  ret i64 %r\nend:\n  ret i64 0\n}\n"
        "define internal zeroext i1 @is_less(i8 zeroext %a, i16 signext %b) noinline {\nstart:\n"
        "  %w = sext i8 %a to i16\n  %r = icmp slt i16 %w, %b\n  ret i1 %r\n}\n"
    )
    head = ["%a = load i64, ptr %in, align 1", "%b.p = getelementptr i8, ptr %in, i64 16"]
    head += ["%b = load i8, ptr %b.p, align 1", "%t = icmp ult i64 %a, 77"]
    pair = "{ i64, i8 }"
    parts = [f"%x = extractvalue {pair} %s, 0", f"%y = extractvalue {pair} %s, 1"]
    parts += [*put(64, "%x"), *put(8, "%y", 16), "ret void"]
    call = f"call {pair} @both(i64 %a, i8 %b, i1 %t)"
    cases.add("call of a pair", [*head, f"%s = {call}", *parts])
    cases.add(
        "a part of a pair changed",
        [*head, f"%u = {call}", f"%s = insertvalue {pair} %u, i8 9, 1", *parts],
    )
    cases.add(
        "a choice of pairs",
        [*head, f"%u = {call}", f"%s = select i1 %t, {pair} %u, {pair} zeroinitializer", *parts],
    )
    cases.add(
        "a phi of pairs",
        [
            *head,
            f"%u = {call}",
            "br i1 %t, label %less, label %end",
            "less:",
            f"%v = insertvalue {pair} %u, i64 %a, 0",
            "br label %end",
            "end:",
            f"%s = phi {pair} [ %u, %start ], [ %v, %less ]",
            *parts,
        ],
    )
    cases.add(
        "recursion",
        [
            *head,
            "%n = and i64 %a, 31",
            "%r = call i64 @sum_to(i64 %n, i64 0)",
            *put(64),
            "ret void",
        ],
    )
    cases.add(
        "narrow parameters",
        [
            *head,
            "%c = trunc i64 %a to i16",
            "%sum = add i8 %b, 100",
            "%r = call zeroext i1 @is_less(i8 zeroext %sum, i16 signext %c)",
            *put(1),
            "ret void",
        ],
    )
    cases.declare("{ i64, i64 } @rattle_alloc(i64, i64)")
    cases.declare("{ i64, i64 } @rattle_realloc(ptr, i64, i64, i64)")
    cases.declare("void @rattle_dealloc(ptr)")
    cases.add(
        "allocations",
        [
            *head,
            "%n = and i64 %a, 127",
            "%s = call { i64, i64 } @rattle_alloc(i64 %n, i64 8)",
            "%found.w = extractvalue { i64, i64 } %s, 0",
            "%found = trunc i64 %found.w to i8",
            *put(8, "%found"),
            "%is = trunc i8 %found to i1",
            "br i1 %is, label %some, label %end",
            "some:",
            "%block.n = extractvalue { i64, i64 } %s, 1",
            "%block = inttoptr i64 %block.n to ptr",
            "call void @llvm.memset.p0.i64(ptr %block, i8 %b, i64 %n, i1 false)",
            "%more = add i64 %n, 100",
            "%u = call { i64, i64 } @rattle_realloc(ptr %block, i64 %n, i64 %more, i64 8)",
            "%moved.w = extractvalue { i64, i64 } %u, 0",
            "%moved = trunc i64 %moved.w to i8",
            *put(8, "%moved", 16),
            "%grew = trunc i8 %moved to i1",
            "br i1 %grew, label %larger, label %same",
            "larger:",
            "%new.n = extractvalue { i64, i64 } %u, 1",
            "%new = inttoptr i64 %new.n to ptr",
            "%rest = getelementptr i8, ptr %new, i64 %n",
            "call void @llvm.memset.p0.i64(ptr %rest, i8 5, i64 100, i1 false)",
            "br label %same",
            "same:",
            "%last = phi ptr [ %block, %some ], [ %new, %larger ]",
            "%d = getelementptr i8, ptr %out, i64 32",
            "call void @llvm.memcpy.p0.p0.i64(ptr %d, ptr %last, i64 %n, i1 false)",
            "call void @rattle_dealloc(ptr %last)",
            "br label %end",
            "end:",
            "ret void",
        ],
    )
    for size in ("-1", "9223372036854775808"):
        cases.add(
            f"an allocation of {size}",
            [
                f"%s = call {{ i64, i64 }} @rattle_alloc(i64 {size}, i64 1)",
                "%w = extractvalue { i64, i64 } %s, 0",
                "%r = trunc i64 %w to i8",
                *put(8),
                "ret void",
            ],
        )
