"""The part of LLVM's IR that the translator knows: types, their layout in memory, operands,
instructions, and the exception that stops the translation."""

import dataclasses
from typing import Any, Dict, List, Optional, Tuple


class Unknown(Exception):
    """The module has something that the translator doesn't know."""


# ---- Types


@dataclasses.dataclass(frozen=True)
class Integer:
    bits: int


@dataclasses.dataclass(frozen=True)
class Pointer:
    pass


@dataclasses.dataclass(frozen=True)
class Double:
    """A float of 64 bits. In C it is the number of its bits."""

    bits = 64


@dataclasses.dataclass(frozen=True)
class Void:
    pass


@dataclasses.dataclass(frozen=True)
class Array:
    count: int
    item: Any


@dataclasses.dataclass(frozen=True)
class Struct:
    fields: Tuple[Any, ...]


@dataclasses.dataclass(frozen=True)
class Packed:
    """A struct without padding between its fields. Only constants have it."""

    fields: Tuple[Any, ...]


@dataclasses.dataclass(frozen=True)
class Vector:
    count: int
    item: Any


I1, I8, I16, I32, I64, I128 = (Integer(bits) for bits in (1, 8, 16, 32, 64, 128))
POINTER, DOUBLE, VOID = Pointer(), Double(), Void()
# The last parameter of a variadic function.
VARIADIC = "..."


def name_of(kind):
    """Returns a type as LLVM writes it."""
    if isinstance(kind, Integer):
        return f"i{kind.bits}"
    if isinstance(kind, Pointer):
        return "ptr"
    if isinstance(kind, Double):
        return "double"
    if kind == VARIADIC:
        return kind
    if isinstance(kind, Void):
        return "void"
    if isinstance(kind, Array):
        return f"[{kind.count} x {name_of(kind.item)}]"
    if isinstance(kind, Vector):
        return f"<{kind.count} x {name_of(kind.item)}>"
    fields = ", ".join(map(name_of, kind.fields))
    return f"<{{ {fields} }}>" if isinstance(kind, Packed) else f"{{ {fields} }}"


# ---- Layout in memory: that of the module's data layout, on every processor.

LAYOUT = "e-m:e-p270:32:32-p271:32:32-p272:64:64-i64:64-i128:128-f80:128-n8:16:32:64-S128"
TRIPLE = "x86_64-unknown-linux-gnu"


def stored_bytes(kind):
    """Returns the number of bytes that a load or a store of the type reads or writes."""
    if isinstance(kind, Integer):
        if kind.bits % 8:
            raise Unknown(f"a number of {kind.bits} bits in memory")
        return kind.bits // 8
    if isinstance(kind, Vector):
        if kind.item != I8:
            raise Unknown(f"a vector in memory: {name_of(kind)}")
        return kind.count
    if isinstance(kind, (Pointer, Double)):
        return 8
    raise Unknown(f"a load or a store of {name_of(kind)}")


def alignment_of(kind):
    """Returns the alignment of a type in bytes."""
    if isinstance(kind, Integer):
        size, power = (kind.bits + 7) // 8, 1
        while power < size:
            power *= 2
        return min(power, 16)
    if isinstance(kind, (Pointer, Double)):
        return 8
    if isinstance(kind, Array):
        return alignment_of(kind.item)
    if isinstance(kind, Struct):
        return max(map(alignment_of, kind.fields), default=1)
    raise Unknown(f"the layout of {name_of(kind)}")


def size_of(kind):
    """Returns the number of bytes from one value of the type to the next in an array."""
    if isinstance(kind, (Integer, Pointer, Double)):
        step = alignment_of(kind)
        return (stored_bytes(kind) + step - 1) // step * step
    if isinstance(kind, Array):
        return kind.count * size_of(kind.item)
    if isinstance(kind, Struct):
        end = offset_of(kind, len(kind.fields))
        step = alignment_of(kind)
        return (end + step - 1) // step * step
    if isinstance(kind, Packed):
        return sum(map(size_of, kind.fields))
    if isinstance(kind, Vector) and kind.item == I8 and kind.count & kind.count - 1 == 0:
        return kind.count
    raise Unknown(f"the layout of {name_of(kind)}")


def offset_of(kind, field):
    """Returns the offset of a field in a struct, or the end of its last field."""
    at = 0
    for place, item in enumerate(kind.fields):
        step = alignment_of(item)
        at = (at + step - 1) // step * step
        if place == field:
            return at
        at += size_of(item)
    return at


# ---- Operands: a value with its type


@dataclasses.dataclass(frozen=True)
class Operand:
    """A value that an instruction takes.

    `sort` states what `value` is:
    - "local" or "global": the name
    - "number": an int for an integer type, or the bits of a double
    - "null", "zero" or "undef" (also for poison): None
    - "bytes": the bytes of an array
    - "items": a tuple of operands, for a vector, an array or a struct
    - "expression": a constant Instruction
    """

    kind: Any
    sort: str
    value: Any = None


@dataclasses.dataclass
class Instruction:
    """An instruction. `words` has the other parts of its line, such as the condition of a
    comparison, the callee, indices or labels."""

    op: str
    kind: Any
    operands: List[Operand]
    result: Optional[str] = None
    words: Dict[str, Any] = dataclasses.field(default_factory=dict)
    line: str = ""

    def __hash__(self):
        return id(self)


@dataclasses.dataclass
class Block:
    name: str
    phis: List[Instruction] = dataclasses.field(default_factory=list)
    body: List[Instruction] = dataclasses.field(default_factory=list)
    end: Optional[Instruction] = None


@dataclasses.dataclass
class Function:
    name: str
    result: Any
    parameters: List[Tuple[Any, str]]
    is_internal: bool
    blocks: List[Block] = dataclasses.field(default_factory=list)


@dataclasses.dataclass
class Constant:
    """A global constant, as bytes. `pointers` has the offset of each pointer in it, and the offset
    in it to which the pointer points."""

    name: str
    data: bytes
    alignment: int
    pointers: List[Tuple[int, int]]


@dataclasses.dataclass
class Module:
    functions: Dict[str, Function] = dataclasses.field(default_factory=dict)
    constants: Dict[str, Constant] = dataclasses.field(default_factory=dict)
    declared: Dict[str, Tuple[Any, List[Any]]] = dataclasses.field(default_factory=dict)
