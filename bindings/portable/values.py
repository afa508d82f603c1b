"""C expressions, and the C code of types, constants and operands."""

import dataclasses
from typing import Optional, Tuple

from ir import (
    I1,
    I8,
    I16,
    I32,
    I64,
    Double,
    Integer,
    Pointer,
    Struct,
    Unknown,
    Vector,
    Void,
    name_of,
)

# The pointer that is null.
NULL = "(P)0"
# The maximum depth of an expression. C99 guarantees 63 levels of parentheses.
DEEPEST = 12
LONGEST = 160


@dataclasses.dataclass(frozen=True)
class Expression:
    """A C expression without side effects.

    `reads` are the variables that it reads. `loads` is whether it reads memory, and `is_atom`
    whether it is an operand without parentheses. `within` is the array that it points into, the
    offset and the array's size. `fields` are the parts of a struct that isn't written yet.
    `is_wide` is whether it is a pointer as a number of 64 bits.
    """

    text: str
    reads: frozenset = frozenset()
    loads: bool = False
    is_atom: bool = True
    depth: int = 0
    within: Optional[Tuple[str, int, int]] = None
    fields: Optional[tuple] = None
    is_wide: bool = False

    @property
    def operand(self):
        return self.text if self.is_atom else f"({self.text})"

    @property
    def is_large(self):
        return self.depth > DEEPEST or len(self.text) > LONGEST


def joined(text, parts, is_atom):
    return Expression(
        text,
        frozenset().union(*(it.reads for it in parts)),
        any(it.loads for it in parts),
        is_atom,
        1 + max((it.depth for it in parts), default=0),
    )


def combine(form, *parts):
    """Returns the expression of a form such as "{} + {}", with parentheses if necessary."""
    return joined(form.format(*(it.operand for it in parts)), parts, False)


def call(name, *parts):
    """Returns a call of a function of the prelude."""
    return joined(f"{name}({', '.join(it.text for it in parts)})", parts, True)


def cast(to, part):
    return combine(f"({to}){{}}", part)


def literal(text):
    return Expression(text)


def pointer(part):
    """Returns a pointer as one of C."""
    return cast("P", cast("uintptr_t", part)) if part.is_wide else part


def widened(part):
    """Returns a pointer as a number of 64 bits."""
    if part.is_wide:
        return part
    made = literal("0ull") if part.text == NULL else call("address_of", part)
    return dataclasses.replace(made, is_wide=True)


# ---- Types


def held_bits(bits):
    """Returns the width of the C type of a number with this many bits."""
    for width in (8, 16, 32, 64):
        if bits <= width:
            return width
    if bits in (128, 256):
        return bits
    raise Unknown(f"a number of {bits} bits")


def held(kind):
    """Returns the C type of an integer."""
    return "bool" if kind.bits == 1 else f"u{held_bits(kind.bits)}"


def vector_type(kind):
    """Returns the C type of a vector of bytes, or of truths, each of which is a byte 0 or 255. A
    vector of less than 16 is the beginning of one of 16, whose other bytes may have any value."""
    if kind.item not in (I1, I8) or kind.count not in (2, 4, 8, 16, 32, 64):
        raise Unknown(f"a vector {name_of(kind)}")
    return f"V{max(kind.count, 16)}"


def has_lanes(kind):
    """Returns whether a type is a vector of 16 bytes of wider numbers. In C it is a struct of
    them."""
    return isinstance(kind, Vector) and kind in (Vector(8, I16), Vector(4, I32), Vector(2, I64))


def lanes_of(kind):
    """Returns the struct of the numbers of a vector."""
    return Struct((kind.item,) * kind.count)


def c_type(kind):
    if isinstance(kind, Integer):
        return held(kind)
    if isinstance(kind, Pointer):
        return "P"
    if isinstance(kind, Double):
        return "u64"
    if isinstance(kind, Void):
        return "void"
    if has_lanes(kind):
        return c_type(lanes_of(kind))
    if isinstance(kind, Vector):
        return vector_type(kind)
    if isinstance(kind, Struct):
        if not kind.fields or any(isinstance(it, (Struct, Vector)) for it in kind.fields):
            raise Unknown(f"a value of {name_of(kind)}")
        return "S_" + "_".join(map(field_type, kind.fields))
    raise Unknown(f"a value of {name_of(kind)}")


def field_type(kind):
    """Returns the C type of a part of a struct. A pointer there is a number."""
    return "u64" if isinstance(kind, Pointer) else c_type(kind)


def struct_definition(kind):
    fields = " ".join(f"{field_type(it)} f{place};" for place, it in enumerate(kind.fields))
    return f"typedef struct {{ {fields} }} {c_type(kind)};"


# ---- Constants


def number(bits, value):
    """Returns a number of this many bits. Below 32 bits it has the type int, like the results that
    C computes from such numbers."""
    value %= 1 << bits
    if bits == 128:
        low = value & (1 << 64) - 1
        return literal(f"make_u128({value >> 64:#x}ull, {low:#x}ull)")
    if bits == 256:
        halves = (number(128, it).text for it in (value >> 128, value))
        return literal(f"make_u256({', '.join(halves)})")
    digits = str(value) if value < 1 << 16 else f"{value:#x}"
    return literal(digits + {8: "", 16: "", 32: "u", 64: "ull"}[held_bits(bits)])


def zero(kind):
    """Returns the value of a type with all bits zero."""
    if isinstance(kind, (Integer, Double)):
        return number(kind.bits, 0)
    if isinstance(kind, Pointer):
        return literal(NULL)
    if has_lanes(kind):
        return zero(lanes_of(kind))
    if isinstance(kind, Vector):
        return literal(f"splat_{vector_type(kind)}(0)")
    if isinstance(kind, Struct):
        return structure(kind, tuple(zero(it) for it in kind.fields))
    raise Unknown(f"a zero of {name_of(kind)}")


def part_of(whole, kind, at):
    """Returns a part of this type of a struct."""
    if whole.fields:
        return whole.fields[at]
    is_wide = isinstance(kind, Pointer)
    return Expression(f"{whole.operand}.f{at}", whole.reads, whole.loads, is_wide=is_wide)


def parts_of(whole, kinds):
    """Returns the parts of a struct with these types."""
    return tuple(part_of(whole, kind, at) for at, kind in enumerate(kinds))


def structure(kind, fields):
    """Returns a struct with these fields."""
    fields = tuple(
        widened(it) if isinstance(of, Pointer) else it for of, it in zip(kind.fields, fields)
    )
    text = f"({c_type(kind)}){{ {', '.join(it.text for it in fields)} }}"
    return dataclasses.replace(joined(text, fields, True), fields=fields)


def vector_of(kind, items):
    """Returns a vector of constant bytes. An undefined byte is 0."""
    scale = 255 if kind.item == I1 else 1
    numbers = []
    for item in items:
        if item.sort not in ("number", "undef", "zero"):
            raise Unknown(f"a vector of {item.sort}")
        numbers.append((item.value or 0) * scale)
    if len(set(numbers)) == 1:
        return literal(f"splat_{vector_type(kind)}({numbers[0]})")
    numbers += [0] * (16 - len(numbers))
    chunks = [
        f"bytes_V16({', '.join(map(str, numbers[at:at + 16]))})"
        for at in range(0, len(numbers), 16)
    ]
    width = 16
    while len(chunks) > 1:
        width *= 2
        pairs = zip(chunks[::2], chunks[1::2])
        chunks = [f"pair_V{width}({low}, {high})" for low, high in pairs]
    return literal(chunks[0])
