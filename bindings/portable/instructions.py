"""Writes the instructions that only compute a value as C expressions.

Numbers are unsigned. Those below 32 bits are computed as int or u32, and cut. No expression has
undefined behaviour in C for any operands, except a division by zero.
"""

import dataclasses

from ir import DOUBLE, I1, I8, I64, I128, Integer, Operand, Pointer, Struct, Unknown, Vector
from ir import name_of, offset_of, size_of, stored_bytes
from values import (
    Expression,
    c_type,
    call,
    cast,
    combine,
    held,
    has_lanes,
    held_bits,
    joined,
    lanes_of,
    literal,
    number,
    part_of,
    parts_of,
    pointer,
    structure,
    vector_of,
    vector_type,
    widened,
    zero,
)

OPERATORS = {
    "add": "+",
    "sub": "-",
    "mul": "*",
    "udiv": "/",
    "urem": "%",
    "and": "&",
    "or": "|",
    "xor": "^",
    "shl": "<<",
    "lshr": ">>",
}
COMPARISONS = {"eq": "==", "ne": "!=", "lt": "<", "le": "<=", "gt": ">", "ge": ">="}
# Operations of floats, with their pieces of the prelude.
FLOATS = {
    "fadd": "add_f64",
    "fsub": "sub_f64",
    "fmul": "mul_f64",
    "fdiv": "div_f64",
    "fneg": "neg_f64",
}
# Comparisons of floats: whether the result of the piece is negated, the piece of the prelude, and
# whether the operands are swapped.
FLOAT_COMPARISONS = {
    "oeq": (False, "eq", False),
    "ogt": (False, "lt", True),
    "oge": (False, "le", True),
    "olt": (False, "lt", False),
    "ole": (False, "le", False),
    "one": (False, "unlike", False),
    "ord": (False, "ord", False),
    "ueq": (True, "unlike", False),
    "ugt": (True, "le", False),
    "uge": (True, "lt", False),
    "ult": (True, "le", True),
    "ule": (True, "lt", True),
    "une": (True, "eq", False),
    "uno": (True, "ord", False),
}
# Intrinsics of numbers of 8, 16, 32 or 64 bits, with the number of their operands. The piece of the
# prelude has the same name.
NUMERIC = {
    "umin": 2,
    "umax": 2,
    "smin": 2,
    "smax": 2,
    "usub.sat": 2,
    "uadd.sat": 2,
    "fshl": 3,
    "fshr": 3,
    "bswap": 1,
    "bitreverse": 1,
    "ctpop": 1,
    # These also take a flag, which is set if one case gives poison.
    "abs": 1,
    "ctlz": 1,
    "cttz": 1,
}
FLAGGED = ("abs", "ctlz", "cttz")
# The intrinsics of 128 bits.
NUMERIC_128 = ("umin", "umax", "usub.sat", "abs")
OVERFLOWING = {
    "uadd.with.overflow": "uadd_overflow",
    "usub.with.overflow": "usub_overflow",
    "umul.with.overflow": "umul_overflow",
    "sadd.with.overflow": "sadd_overflow",
    "ssub.with.overflow": "ssub_overflow",
}
COMPARING = ("ucmp", "scmp")
PSHUFB = "llvm.x86.ssse3.pshuf.b.128"


def constant(operand, express):
    """Returns the expression of a constant operand."""
    kind, sort, value = operand.kind, operand.sort, operand.value
    if sort == "number":
        return number(kind.bits, value)
    if sort in ("undef", "zero", "null"):
        return zero(kind)
    if sort == "items" and has_lanes(kind):
        return structure(lanes_of(kind), tuple(express(it) for it in value))
    if sort == "items" and isinstance(kind, Vector):
        return vector_of(kind, value)
    if sort == "items" and isinstance(kind, Struct):
        return structure(kind, tuple(express(it) for it in value))
    raise Unknown(f"a constant {sort} of {name_of(kind)}")


def stored_name(kind):
    """Returns the name of a type in the functions that read and write memory."""
    return f"V{kind.count}" if isinstance(kind, Vector) else c_type(kind)


class Pure:
    """Writes instructions as expressions. `express` returns the expression of an operand. `wide` are
    the names of the pointers that are kept as numbers."""

    def __init__(self, express, wide):
        self.express, self.wide = express, wide

    def write(self, made):
        """Returns the expression of an instruction that neither writes nor calls a function."""
        # The indices of a shuffle have no expression.
        operands = made.operands[:2] if made.op == "shufflevector" else made.operands
        parts = [self.express(it) for it in operands]
        if made.op not in ("insertvalue", "ptrtoint", "ptrtoaddr"):
            kept = widened if made.op != "load" and made.result in self.wide else pointer
            parts = [
                kept(part) if isinstance(it.kind, Pointer) else part
                for it, part in zip(operands, parts)
            ]
        if made.op in OPERATORS or made.op in ("sdiv", "srem", "ashr"):
            return self.binary(made, *parts)
        if made.op in FLOATS:
            return call(FLOATS[made.op], *parts)
        method = getattr(self, "write_" + made.op, None)
        if not method:
            raise Unknown(f"the instruction: {made.line}")
        return method(made, *parts)

    # ---- Arithmetic

    def cut(self, bits, part, computed):
        """Cuts a number that was computed in a wider type to its bits."""
        if bits in (32, 64) and computed == bits:
            return part
        if bits in (8, 16, 32):
            return cast(f"u{bits}", part)
        mask = number(computed, (1 << bits) - 1)
        return cast(held(Integer(bits)), combine("{} & {}", part, mask))

    def binary(self, made, first, second):
        kind, op = made.kind, made.op
        if has_lanes(kind):
            return self.lanes_binary(made, first, second)
        if isinstance(kind, Vector):
            return self.vector_binary(made, first, second)
        bits = kind.bits
        if bits == 128:
            if op in ("sdiv", "srem"):
                raise Unknown(f"a division of 128 bits: {made.line}")
            return call(f"{op}_u128", first, second)
        if bits > 128:
            if op not in ("add", "sub"):
                raise Unknown(f"an operation of {bits} bits: {made.line}")
            return call(f"{op}_u{bits}", first, second)
        if bits == 1:
            return self.truth(made, first, second)
        if op in ("and", "or", "xor", "udiv", "urem"):
            return combine("{} " + OPERATORS[op] + " {}", first, second)
        if op in ("sdiv", "srem"):
            if bits != held_bits(bits):
                raise Unknown(f"a division of {bits} bits: {made.line}")
            return call(f"{op}_u{bits}", first, second)
        if op == "ashr":
            width = held_bits(bits)
            shifted = call(f"ashr_u{width}", self.extended(bits, width, first), second)
            return shifted if width == bits else self.cut(bits, shifted, max(width, 32))
        if op in ("shl", "lshr"):
            return self.shift(made, first, second)
        computed = max(held_bits(bits), 32)
        if computed != held_bits(bits):
            first = cast("u32", first)
        operator, value = OPERATORS[op], made.operands[1].value
        if op == "add" and made.operands[1].sort == "number" and value >> (bits - 1):
            operator, second = "-", number(bits, -value)
        return self.cut(bits, combine("{} " + operator + " {}", first, second), computed)

    def truth(self, made, first, second):
        """Writes and, or and xor of two truths."""
        value = made.operands[1]
        if made.op == "xor" and value.sort == "number":
            return combine("!{}", first) if value.value else first
        if made.op not in ("and", "or", "xor"):
            raise Unknown(f"arithmetic of one bit: {made.line}")
        return combine("(u32){} " + OPERATORS[made.op] + " {}", first, second)

    def shift(self, made, value, count):
        """Writes a shift. Its count is reduced to the width of the number's C type."""
        bits, width = made.kind.bits, held_bits(made.kind.bits)
        given = made.operands[1]
        if given.sort != "number" or given.value >= width:
            count = combine("{} & {}", count, number(max(width, 32), width - 1))
        if made.op == "lshr":
            return combine("{} >> {}", value, count)
        if width < 32:
            value = cast("u32", value)
        return self.cut(bits, combine("{} << {}", value, count), max(width, 32))

    def extended(self, bits, to, part):
        """Returns a number with its sign extended to the C type of `to` bits."""
        if bits == to:
            return part
        width = max(to, 32)
        if bits == 1:
            made = combine("{} - {}", number(width, 0), cast(f"u{width}", part))
        else:
            sign = number(width, 1 << (bits - 1))
            flipped = combine("{} ^ {}", cast(f"u{width}", part), sign)
            made = combine("{} - {}", flipped, sign)
        return made if to == width else cast(f"u{to}", made)

    # ---- Comparisons and choices

    def write_icmp(self, made, first, second):
        kind, condition = made.operands[0].kind, made.words["condition"]
        sign, plain = condition[0], COMPARISONS[condition[-2:]]
        if isinstance(kind, Vector):
            if kind.item != I8 and condition not in ("eq", "ne"):
                raise Unknown(f"an order of truths: {made.line}")
            return call(f"{condition}_{vector_type(kind)}", first, second)
        if isinstance(kind, Pointer):
            if condition in ("eq", "ne"):
                return combine("{} " + plain + " {}", first, second)
            if sign == "s":
                raise Unknown(f"a signed comparison of pointers: {made.line}")
            first, second = cast("uintptr_t", first), cast("uintptr_t", second)
            return combine("{} " + plain + " {}", first, second)
        if kind.bits > 128 and condition not in ("ugt", "ule", "ult", "uge"):
            raise Unknown(f"a comparison of {kind.bits} bits: {made.line}")
        if kind.bits >= 128:
            return self.compare_wide(kind.bits, condition, first, second)
        if condition in ("eq", "ne") or sign == "u":
            if kind.bits == 1:
                first, second = cast("u32", first), cast("u32", second)
            return combine("{} " + plain + " {}", first, second)
        width = held_bits(kind.bits)
        first, second = (
            cast(f"int{width}_t", self.extended(kind.bits, width, it)) for it in (first, second)
        )
        return combine("{} " + plain + " {}", first, second)

    def write_fcmp(self, made, first, second):
        is_opposite, piece, is_turned = FLOAT_COMPARISONS[made.words["condition"]]
        pair = (second, first) if is_turned else (first, second)
        made = call(f"{piece}_f64", *pair)
        return combine("!{}", made) if is_opposite else made

    def compare_wide(self, bits, condition, first, second):
        if condition in ("eq", "ne"):
            made = call("eq_u128", first, second)
            return made if condition == "eq" else combine("!{}", made)
        if condition[1:] in ("gt", "le"):
            first, second = second, first
        made = call(f"{condition[0]}lt_u{bits}", first, second)
        return made if condition[1:] in ("lt", "gt") else combine("!{}", made)

    def write_select(self, made, condition, first, second):
        if isinstance(made.operands[0].kind, Vector):
            return call(f"choose_{vector_type(made.kind)}", condition, first, second)
        if made.kind == I1:
            third = made.operands[2]
            if third.sort == "number" and not third.value:
                return combine("{} && {}", condition, first)
            if made.operands[1].sort == "number" and made.operands[1].value:
                return combine("{} || {}", condition, second)
        chosen = combine("{} ? {} : {}", condition, first, second)
        return dataclasses.replace(chosen, is_wide=made.result in self.wide)

    def write_freeze(self, made, part):
        return part

    # ---- Conversions

    def write_zext(self, made, part):
        source, bits = made.operands[0].kind, made.kind
        if isinstance(source, Vector):
            if source.item != I1 or made.kind.item != I8:
                raise Unknown(f"a conversion of vectors: {made.line}")
            name = vector_type(made.kind)
            return call(f"and_{name}", part, call(f"splat_{name}", literal("1")))
        if bits.bits > 128:
            part = part if source.bits == 128 else call("make_u128", literal("0ull"), part)
            return call("make_u256", number(128, 0), part)
        if bits.bits == 128:
            return call("make_u128", literal("0ull"), part)
        if source.bits > 1 and held_bits(source.bits) == held_bits(bits.bits):
            return part
        return cast(held(bits), part)

    def write_sext(self, made, part):
        source = made.operands[0].kind
        if isinstance(source, Vector):
            if source.item != I1 or made.kind.item != I8:
                raise Unknown(f"a conversion of vectors: {made.line}")
            return part
        bits = made.kind.bits
        if bits > 128:
            raise Unknown(f"a conversion to {bits} bits: {made.line}")
        if bits == 128:
            return call("sext_u128", self.extended(source.bits, 64, part))
        width = held_bits(bits)
        wide = self.extended(source.bits, width, part)
        return wide if width == bits else self.cut(bits, wide, max(width, 32))

    def write_trunc(self, made, part):
        source, bits = made.operands[0].kind, made.kind.bits
        if isinstance(made.kind, Vector):
            raise Unknown(f"a conversion of vectors: {made.line}")
        if source.bits > 128:
            raise Unknown(f"a conversion of {source.bits} bits: {made.line}")
        width = max(held_bits(source.bits), 32)
        if source.bits == 128:
            part, width = call("low_u128", part), 64
        if bits == 1:
            return combine("{} & {}", part, number(width, 1))
        if bits == 64 or bits in (8, 16, 32):
            return cast(f"u{bits}", part) if bits < 64 else part
        return self.cut(bits, part, width)

    def write_ptrtoint(self, made, part):
        wide = dataclasses.replace(widened(part), is_wide=False)
        if made.kind.bits > 64:
            raise Unknown(f"a pointer in {made.kind.bits} bits: {made.line}")
        return wide if made.kind.bits == 64 else self.cut(made.kind.bits, wide, 64)

    write_ptrtoaddr = write_ptrtoint

    def write_inttoptr(self, made, part):
        if made.operands[0].kind.bits > 64:
            raise Unknown(f"a pointer of another width: {made.line}")
        return cast("P", cast("uintptr_t", part))

    def write_uitofp(self, made, part):
        source = made.operands[0].kind
        if made.kind != DOUBLE or not isinstance(source, Integer) or source.bits > 64:
            raise Unknown(f"a conversion to a float: {made.line}")
        return call("f64_of", part)

    def write_bitcast(self, made, part):
        source, kind = made.operands[0].kind, made.kind
        if source == kind or {source, kind} == {I64, DOUBLE}:
            return part
        if isinstance(source, Vector) and source.item == I1 and kind == Integer(source.count):
            mask = call(f"mask_{vector_type(source)}", part)
            return mask if source.count >= 16 else self.cut(source.count, mask, 32)
        if source == Vector(16, I8) and kind == I128:
            return call("number_V16", part)
        if source == I128 and kind == Vector(16, I8):
            return call("vector_u128", part)
        if has_lanes(source) and has_lanes(kind):
            return self.lanes_from(kind, self.halves(source, part))
        if has_lanes(source) and kind == Vector(16, I8):
            return call("vector_u128", call("make_u128", *reversed(self.halves(source, part))))
        raise Unknown(f"a conversion: {made.line}")

    # ---- Structs

    def write_extractvalue(self, made, part):
        return part_of(part, made.kind, made.words["index"])

    def write_insertvalue(self, made, whole, item):
        return self.replaced(made.kind, made.words["index"], whole, item)

    def replaced(self, kind, index, whole, item):
        """Returns a struct with one part replaced."""
        fields = parts_of(whole, kind.fields)
        return structure(kind, fields[:index] + (item,) + fields[index + 1 :])

    # ---- Vectors

    def vector_binary(self, made, first, second):
        name = vector_type(made.kind)
        if made.op in ("and", "or", "xor") or (made.op in ("add", "sub") and made.kind.item == I8):
            return call(f"{made.op}_{name}", first, second)
        if made.op in ("shl", "lshr", "ashr") and made.kind.item == I8:
            counts = made.operands[1]
            items = {it.value for it in counts.value} if counts.sort == "items" else set()
            if len(items) == 1 and all(isinstance(it, int) and it < 8 for it in items):
                return call(f"{made.op}_{name}", first, literal(f"{items.pop()}"))
        raise Unknown(f"an operation of vectors: {made.line}")

    def lanes_binary(self, made, first, second):
        """Writes an operation of vectors that are structs of their numbers."""
        kinds = lanes_of(made.kind).fields
        pairs = zip(parts_of(first, kinds), parts_of(second, kinds))
        values = []
        for at, pair in enumerate(pairs):
            operands = [self.lane_operand(it, at) for it in made.operands]
            one = dataclasses.replace(made, kind=made.kind.item, operands=operands)
            values.append(self.binary(one, *pair))
        return structure(lanes_of(made.kind), tuple(values))

    def lane_operand(self, operand, at):
        """Returns a number of a vector as an operand."""
        if operand.sort == "items":
            return operand.value[at]
        if operand.sort in ("zero", "undef"):
            return Operand(operand.kind.item, "number", 0)
        return Operand(operand.kind.item, operand.sort, operand.value)

    def halves(self, kind, whole):
        """Returns the bytes of a vector as two numbers of 64 bits."""
        bits, parts = kind.item.bits, parts_of(whole, lanes_of(kind).fields)
        found = []
        for begin in (0, kind.count // 2):
            made = cast("u64", parts[begin])
            for at, part in enumerate(parts[begin + 1 : begin + kind.count // 2], 1):
                shifted = combine("{} << {}", cast("u64", part), literal(str(at * bits)))
                made = combine("{} | {}", made, shifted)
            found.append(made)
        return found

    def lanes_from(self, kind, halves):
        """Returns the vector whose bytes are two numbers of 64 bits."""
        bits = kind.item.bits
        values = [
            self.cut(bits, combine("{} >> {}", half, literal(str(at))), 64)
            for half in halves
            for at in range(0, 64, bits)
        ]
        return structure(lanes_of(kind), tuple(values))

    def place(self, made, operand):
        """Returns a constant index in a vector."""
        count = made.operands[0].kind.count
        if operand.sort != "number" or operand.value >= count:
            raise Unknown(f"a place in a vector that isn't constant: {made.line}")
        return operand.value

    def chunk(self, part, count, at):
        """Returns the sixteen bytes with the number `at` of a vector of `count` bytes."""
        text = part.operand
        while count > 16:
            count //= 2
            text += ".high" if at * 16 >= count else ".low"
            at %= count // 16
        return Expression(text, part.reads, part.loads)

    def write_extractelement(self, made, whole, _):
        kind = made.operands[0].kind
        if has_lanes(kind):
            return part_of(whole, kind.item, self.place(made, made.operands[1]))
        vector_type(kind)
        if kind.item != I8:
            raise Unknown(f"an item of truths: {made.line}")
        at = self.place(made, made.operands[1])
        chunk = self.chunk(whole, kind.count, at // 16)
        return joined(f"lane_V16({chunk.text}, {at % 16})", [whole], True)

    def write_insertelement(self, made, whole, item, _):
        at = self.place(made, made.operands[2])
        if has_lanes(made.kind):
            return self.replaced(lanes_of(made.kind), at, whole, item)
        if made.kind.item != I8:
            raise Unknown(f"an item of truths: {made.line}")
        return call(f"put_{vector_type(made.kind)}", whole, item, literal(str(at)))

    def write_shufflevector(self, made, first, second):
        """Writes a choice of bytes of two vectors. Each sixteen bytes of the result are a run of
        bytes, or all bytes are the same one."""
        source, places = made.operands[0].kind, self.places(made)
        if has_lanes(source) and has_lanes(made.kind):
            kinds = lanes_of(source).fields
            items = parts_of(first, kinds) + parts_of(second, kinds)
            return structure(lanes_of(made.kind), tuple(items[it or 0] for it in places))
        name, count = vector_type(made.kind), source.count
        if source.item != I8 or count < 16 or made.kind.count < 16:
            raise Unknown(f"a choice of truths, or of less than 16 bytes: {made.line}")

        def chunk_at(at):
            whole = first if at < count // 16 else second
            return self.chunk(whole, count, at % (count // 16))

        known = {it for it in places if it is not None}
        if len(known) == 1:
            at = known.pop()
            chunk = chunk_at(at // 16)
            byte = joined(f"lane_V16({chunk.text}, {at % 16})", [chunk], True)
            return call(f"splat_{name}", byte)
        chunks = []
        for begin in range(0, len(places), 16):
            run = places[begin : begin + 16]
            starts = {it - at for at, it in enumerate(run) if it is not None}
            if len(starts) != 1 or min(starts) < 0 or min(starts) + 16 > 2 * count:
                raise Unknown(f"a choice of bytes that aren't a run: {made.line}")
            start = starts.pop()
            made_of = chunk_at(start // 16)
            if start % 16:
                after = chunk_at(start // 16 + 1)
                made_of = call("shift_V16", made_of, after, literal(str(start % 16)))
            chunks.append(made_of)
        width = 16
        while len(chunks) > 1:
            width *= 2
            chunks = [
                call(f"pair_V{width}", low, high) for low, high in zip(chunks[::2], chunks[1::2])
            ]
        return chunks[0]

    def places(self, made):
        mask = made.operands[2]
        if mask.sort == "zero":
            return [0] * mask.kind.count
        if mask.sort != "items":
            raise Unknown(f"a choice of bytes by {mask.sort}: {made.line}")
        return [it.value if it.sort == "number" else None for it in mask.value]

    # ---- Memory

    def write_load(self, made, place):
        kind = made.kind
        if isinstance(kind, Struct):
            raise Unknown(f"a load of a struct: {made.line}")
        size = stored_bytes(kind)
        is_wide = made.result in self.wide
        if kind == I8:
            text = combine("*{}", place)
        elif isinstance(kind, Integer) or is_wide:
            text = call(f"ld_u{size * 8}", place)
        else:
            text = call(f"ld_{stored_name(kind)}", place)
        return dataclasses.replace(text, loads=True, is_wide=is_wide)

    def write_getelementptr(self, made, base, *indices):
        offset, moved = 0, []
        kind = made.words["source"]
        for at, index in enumerate(indices):
            operand = made.operands[at + 1]
            if at:
                if isinstance(kind, Struct):
                    offset += offset_of(kind, operand.value)
                    kind = kind.fields[operand.value]
                    continue
                kind = kind.item
            step = size_of(kind)
            bits = operand.kind.bits
            if bits > 64:
                raise Unknown(f"an index of {bits} bits: {made.line}")
            if operand.sort == "number":
                value = operand.value
                offset += step * (value - (value >> (bits - 1) << bits))
                continue
            wide = self.extended(bits, 64, index)
            moved.append(wide if step == 1 else combine("{} * {}", wide, number(64, step)))
        return self.address(base, offset, moved)

    def address(self, base, offset, moved):
        """Returns a pointer plus a constant and numbers."""
        if not moved:
            if offset == 0:
                return base
            if base.within and 0 <= base.within[1] + offset <= base.within[2]:
                return in_array(base.within[0], base.within[1] + offset, base.within[2])
            return call(
                "AT", base, literal(str(offset) if abs(offset) < 1 << 31 else f"{offset}ll")
            )
        total = moved[0]
        for more in moved[1:]:
            total = combine("{} + {}", total, more)
        if offset:
            total = combine("{} + {}", total, number(64, offset))
        return call("AT", base, total)

    # ---- Intrinsics

    def write_call(self, made, *parts):
        callee, kind = made.words["callee"], made.kind
        if callee == PSHUFB:
            return call("pshufb_V16", *parts)
        name, _, suffix = callee[len("llvm.") :].rpartition(".")
        operand = made.operands[0].kind if made.operands else None
        if isinstance(operand, Vector):
            vector = vector_type(operand)
            if name in ("usub.sat", "umin", "umax") and operand.item == I8:
                return call(f"{name.replace('.', '_')}_{vector}", *parts)
            if name == "vector.reduce.or" and operand.item == I8 and operand.count >= 16:
                return call(f"any_{vector}", *parts)
        elif isinstance(operand, Integer) and suffix == f"i{operand.bits}":
            if name == "expect":
                return parts[0]
            if name.partition(".")[0] in COMPARING and operand.bits in (8, 16, 32, 64):
                wide = call(f"{name[:4]}_u{operand.bits}", *parts)
                return wide if kind.bits == 64 else self.cut(kind.bits, wide, 64)
            if name in NUMERIC_128 and operand.bits == 128:
                return call(f"{name.replace('.', '_')}_u128", *parts[: NUMERIC[name]])
            if operand.bits in (8, 16, 32, 64):
                if name in NUMERIC and len(parts) == NUMERIC[name] + (name in FLAGGED):
                    piece = f"{name.replace('.', '_')}_u{operand.bits}"
                    return call(piece, *parts[: NUMERIC[name]])
                if name in OVERFLOWING:
                    c_type(kind)
                    return call(f"{OVERFLOWING[name]}_u{operand.bits}", *parts)
        elif operand == DOUBLE and suffix == "f64":
            if name == "arithmetic.fence":
                return parts[0]
            if name == "fabs":
                return call("abs_f64", *parts)
        raise Unknown(f"the call: {made.line}")


def in_array(name, offset, size):
    """Returns a pointer into an array. The script knows that it isn't outside of the array."""
    text = f"{name} + {offset}" if offset else name
    is_atom = not offset and not name.startswith("(")
    return Expression(text, frozenset(), False, is_atom, 0, (name, offset, size))
