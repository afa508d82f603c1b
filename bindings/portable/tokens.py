"""Reads a line of an LLVM module: its tokens, types, attributes and operands. An unknown word stops
the translation."""

import re
import struct

from ir import DOUBLE, I1, POINTER, VOID, Array, Instruction, Integer, Operand, Packed, Pointer
from ir import Struct, Unknown, Vector

TOKEN = re.compile(
    r"""\s*(?:
      (?P<name>[%@](?:"(?:[^"\\]|\\.)*"|[-\w.$]+))
    | (?P<bytes>c"(?:[^"\\]|\\.)*")
    | (?P<text>"(?:[^"\\]|\\.)*")
    | (?P<data>!(?:[-\w.$]+|(?=\{))|\#\d+)
    | (?P<number>-?\d+(?![\w.]))
    | (?P<float>-?\d+\.\d+e[+-]\d+|0x[0-9A-F]{16}(?!\w))
    | (?P<word>[A-Za-z_][\w.]*)
    | (?P<mark>\.\.\.|[][(){}<>,=*:])
    )""",
    re.X,
)

BINARY = set("add sub mul udiv sdiv urem srem and or xor shl lshr ashr".split())
CASTS = set("zext sext trunc ptrtoint ptrtoaddr inttoptr bitcast uitofp".split())
FLAGS = set("nuw nsw exact disjoint nneg samesign inbounds nusw".split())
# Attributes of a parameter, an argument or a result. They state facts that are true anyway, so they
# are ignored.
PLAIN_ATTRIBUTES = set(
    "noundef nonnull readonly writeonly readnone zeroext signext noalias nocapture immarg returned"
    " nofree writable dead_on_unwind dead_on_return".split()
)
ATTRIBUTES_OF = set("captures dereferenceable dereferenceable_or_null range initializes".split())
LINKAGE = set("internal private unnamed_addr local_unnamed_addr dso_local fastcc".split())


def tokens_of(line):
    """Splits a line into (sort, text) pairs."""
    found, at, line = [], 0, line.rstrip()
    while at < len(line):
        match = TOKEN.match(line, at)
        if not match:
            if line[at:].lstrip().startswith(";"):
                break
            raise Unknown(f"`{line[at:at + 40].strip()}` in the line: {line.strip()[:300]}")
        found.append((match.lastgroup, match[match.lastgroup]))
        at = match.end()
    return found


def plain(name):
    """Returns a name without its sign and its quotes."""
    name = name[1:] if name[0] in "%@" else name
    return name[1:-1] if name.startswith('"') else name


def unescaped(text):
    """Returns the bytes of a constant c"..", in which `\\\\` and `\\xx` are one byte each."""
    found, at = bytearray(), 2
    while at < len(text) - 1:
        if text[at] != "\\":
            found += text[at].encode("latin-1")
            at += 1
        elif text[at + 1] == "\\":
            found += b"\\"
            at += 2
        else:
            found.append(int(text[at + 1 : at + 3], 16))
            at += 3
    return bytes(found)


def bits_of_float(text):
    """Returns the bits of a double. The text has them in hexadecimal, or is a decimal number."""
    if text.startswith("0x"):
        return int(text, 16)
    return int.from_bytes(struct.pack("<d", float(text)), "little")


class Line:
    """The tokens of a line, read from the left."""

    def __init__(self, line):
        self.line, self.tokens, self.at = line, tokens_of(line), 0

    def fail(self, what):
        raise Unknown(f"{what} in the line: {self.line.strip()[:300]}")

    def peek(self):
        return self.tokens[self.at][1] if self.at < len(self.tokens) else ""

    def sort(self):
        return self.tokens[self.at][0] if self.at < len(self.tokens) else ""

    def take(self):
        if self.at == len(self.tokens):
            self.fail("the end")
        self.at += 1
        return self.tokens[self.at - 1][1]

    def expect(self, text):
        if self.peek() != text:
            self.fail(f"`{self.peek()}` in place of `{text}`")
        self.at += 1

    def has(self, text):
        """Takes the token if it is this one, and returns whether it is."""
        if self.peek() == text:
            self.at += 1
            return True
        return False

    def words(self, known):
        """Takes the next tokens, as long as they are words of a set."""
        while self.peek() in known:
            self.at += 1

    def number(self):
        if self.sort() != "number":
            self.fail(f"`{self.peek()}` in place of a number")
        return int(self.take())

    def name(self):
        if self.sort() != "name":
            self.fail(f"`{self.peek()}` in place of a name")
        return self.take()

    def skip_parentheses(self):
        self.expect("(")
        depth = 1
        while depth:
            depth += {"(": 1, ")": -1}.get(self.take(), 0)

    def attributes(self):
        """Takes the attributes of a parameter, an argument or a result."""
        while True:
            word = self.peek()
            if word in PLAIN_ATTRIBUTES:
                self.at += 1
            elif word in ATTRIBUTES_OF:
                self.at += 1
                self.skip_parentheses()
            elif word == "align":
                self.at += 1
                self.number()
            else:
                return

    def ends(self):
        """Checks that nothing follows, except an alignment and metadata."""
        while self.at < len(self.tokens):
            self.expect(",")
            if self.has("align"):
                self.number()
            elif self.sort() == "data":
                self.at += 1
                if self.sort() != "data":
                    self.fail(f"`{self.peek()}`")
                self.at += 1
            else:
                self.fail(f"`{self.peek()}`")

    # ---- Types and operands

    def type(self):
        text = self.take()
        if re.fullmatch(r"i\d+", text):
            return Integer(int(text[1:]))
        if text == "ptr":
            return POINTER
        if text == "double":
            return DOUBLE
        if text == "void":
            return VOID
        if text in "[<" and self.sort() == "number":
            count = self.number()
            self.expect("x")
            item = self.type()
            self.expect("]" if text == "[" else ">")
            return Array(count, item) if text == "[" else Vector(count, item)
        if text == "<" and self.has("{"):
            kind = Packed(self.fields())
            self.expect(">")
            return kind
        if text == "{":
            return Struct(self.fields())
        return self.fail(f"`{text}` in place of a type")

    def fields(self):
        """Reads the types of a struct, up to its end."""
        fields = []
        while not self.has("}"):
            fields.append(self.type())
            if self.peek() != "}":
                self.expect(",")
        return tuple(fields)

    def operand(self, kind=None):
        """Reads a value, and before it a type, unless that is given."""
        kind = kind or self.type()
        sort, text = self.sort(), self.take()
        if sort == "name":
            return Operand(kind, "local" if text[0] == "%" else "global", plain(text))
        if sort == "number" and isinstance(kind, Integer):
            return Operand(kind, "number", int(text) % (1 << kind.bits))
        if sort == "float" and kind == DOUBLE:
            return Operand(kind, "number", bits_of_float(text))
        if text in ("true", "false") and kind == I1:
            return Operand(kind, "number", int(text == "true"))
        if text == "null" and isinstance(kind, Pointer):
            return Operand(kind, "null")
        if text in ("undef", "poison"):
            return Operand(kind, "undef")
        if text == "zeroinitializer" and isinstance(kind, (Array, Struct, Vector)):
            return Operand(kind, "zero")
        if sort == "bytes" and isinstance(kind, Array):
            return Operand(kind, "bytes", unescaped(text))
        if text == "splat" and isinstance(kind, Vector):
            self.expect("(")
            item = self.operand()
            self.expect(")")
            return Operand(kind, "items", (item,) * kind.count)
        if text == "<" and isinstance(kind, Packed):
            self.expect("{")
            whole = self.items(kind, "}")
            self.expect(">")
            return whole
        closing = {"<": ">", "[": "]", "{": "}"}.get(text)
        if closing and isinstance(kind, (Array, Struct, Vector)):
            return self.items(kind, closing)
        if text in BINARY or text in CASTS or text == "getelementptr":
            return Operand(kind, "expression", self.constant_expression(kind, text))
        return self.fail(f"the constant `{text}`")

    def items(self, kind, closing):
        """Reads the parts of a constant, up to its end."""
        items = []
        while not self.has(closing):
            items.append(self.operand())
            if self.peek() != closing:
                self.expect(",")
        return Operand(kind, "items", tuple(items))

    def constant_expression(self, kind, op):
        self.words(FLAGS)
        self.expect("(")
        if op in CASTS:
            made = Instruction(op, kind, [self.operand()])
            self.expect("to")
            self.type()
        elif op in BINARY:
            first = self.operand()
            self.expect(",")
            made = Instruction(op, kind, [first, self.operand()])
        else:
            made = Instruction(op, kind, [], words={"source": self.type()})
            while self.has(","):
                made.operands.append(self.operand())
        self.expect(")")
        made.line = self.line
        return made

    def label(self):
        self.expect("label")
        return plain(self.name())
