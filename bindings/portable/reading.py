"""Reads the text of an LLVM module. An unknown instruction in a function stops the translation."""

import re

from ir import DOUBLE, I1, I8, LAYOUT, POINTER, TRIPLE, VARIADIC, VOID, Array, Block, Constant
from ir import Function, Instruction, Module, Packed, Struct, Unknown, Vector, name_of, size_of
from tokens import BINARY, CASTS, FLAGS, LINKAGE, Line, plain

LABEL = re.compile(r'^("(?:[^"\\]|\\.)*"|[-\w.$]+):(?:\s*;.*)?$')
CONDITIONS = set("eq ne ult ule ugt uge slt sle sgt sge".split())
FLOAT_CONDITIONS = set("oeq ogt oge olt ole one ord ueq ugt uge ult ule une uno".split())
# Calls that inform the optimizer, and have no effect.
HINTS = (
    "llvm.lifetime.start.p0",
    "llvm.lifetime.end.p0",
    "llvm.assume",
    "llvm.experimental.noalias.scope.decl",
)


class InstructionLine(Line):
    """The tokens of an instruction."""

    def instruction(self):
        result = None
        if self.sort() == "name":
            result = plain(self.take())
            self.expect("=")
        op = self.take()
        if op in ("tail", "musttail", "notail"):
            self.expect("call")
            op = "call"
        read = getattr(self, "read_" + op, None)
        if op in BINARY:
            read = self.read_binary
        elif op in CASTS:
            read = self.read_cast
        if not read:
            self.fail(f"the instruction `{op}`")
        made = read(op)
        made.result, made.line = result, self.line.strip()
        return made

    def read_binary(self, op):
        self.words(FLAGS)
        first = self.operand()
        self.expect(",")
        second = self.operand(first.kind)
        self.ends()
        return Instruction(op, first.kind, [first, second])

    def read_cast(self, op):
        self.words(FLAGS)
        first = self.operand()
        self.expect("to")
        kind = self.type()
        self.ends()
        return Instruction(op, kind, [first])

    def read_icmp(self, op):
        self.words(FLAGS)
        condition = self.take()
        if condition not in CONDITIONS:
            self.fail(f"the condition `{condition}`")
        first = self.operand()
        self.expect(",")
        second = self.operand(first.kind)
        self.ends()
        kind = Vector(first.kind.count, I1) if isinstance(first.kind, Vector) else I1
        return Instruction(op, kind, [first, second], words={"condition": condition})

    def read_fcmp(self, op):
        condition = self.take()
        if condition not in FLOAT_CONDITIONS:
            self.fail(f"the condition `{condition}`")
        first = self.operand(self.double())
        self.expect(",")
        second = self.operand(first.kind)
        self.ends()
        return Instruction(op, I1, [first, second], words={"condition": condition})

    def read_fadd(self, op):
        first = self.operand(self.double())
        self.expect(",")
        second = self.operand(first.kind)
        self.ends()
        return Instruction(op, DOUBLE, [first, second])

    read_fsub = read_fmul = read_fdiv = read_fadd

    def read_fneg(self, op):
        first = self.operand(self.double())
        self.ends()
        return Instruction(op, DOUBLE, [first])

    def double(self):
        """Reads the type of an operation of floats. It fails at a flag that allows inexact
        results."""
        if self.peek() != "double":
            self.fail(f"`{self.peek()}` in place of `double`")
        return self.type()

    def read_freeze(self, op):
        first = self.operand()
        self.ends()
        return Instruction(op, first.kind, [first])

    def read_select(self, op):
        operands = [self.operand()]
        for _ in range(2):
            self.expect(",")
            operands.append(self.operand())
        self.ends()
        return Instruction(op, operands[1].kind, operands)

    def read_alloca(self, op):
        kind = self.type()
        alignment = 1
        if self.has(","):
            self.expect("align")
            alignment = self.number()
        self.ends()
        words = {"size": size_of(kind), "alignment": alignment}
        return Instruction(op, POINTER, [], words=words)

    def read_load(self, op):
        kind = self.type()
        self.expect(",")
        place = self.operand()
        self.ends()
        return Instruction(op, kind, [place])

    def read_store(self, op):
        value = self.operand()
        self.expect(",")
        place = self.operand()
        self.ends()
        return Instruction(op, VOID, [value, place])

    def read_getelementptr(self, op):
        self.words(FLAGS)
        source = self.type()
        operands = []
        while self.peek() == "," and self.tokens[self.at + 1][0] != "data":
            self.expect(",")
            operands.append(self.operand())
        self.ends()
        return Instruction(op, POINTER, operands, words={"source": source})

    def read_phi(self, op):
        kind, labels, operands = self.type(), [], []
        while True:
            self.expect("[")
            operands.append(self.operand(kind))
            self.expect(",")
            labels.append(plain(self.name()))
            self.expect("]")
            if self.peek() != "," or self.tokens[self.at + 1][1] != "[":
                break
            self.expect(",")
        self.ends()
        return Instruction(op, kind, operands, words={"labels": labels})

    def read_extractvalue(self, op):
        whole = self.operand()
        self.expect(",")
        place = self.number()
        self.ends()
        if not isinstance(whole.kind, Struct):
            self.fail("a field of an array")
        return Instruction(op, whole.kind.fields[place], [whole], words={"index": place})

    def read_insertvalue(self, op):
        whole = self.operand()
        self.expect(",")
        item = self.operand()
        self.expect(",")
        place = self.number()
        self.ends()
        if not isinstance(whole.kind, Struct):
            self.fail("a field of an array")
        return Instruction(op, whole.kind, [whole, item], words={"index": place})

    def read_extractelement(self, op):
        whole = self.operand()
        self.expect(",")
        place = self.operand()
        self.ends()
        return Instruction(op, whole.kind.item, [whole, place])

    def read_insertelement(self, op):
        operands = [self.operand()]
        for _ in range(2):
            self.expect(",")
            operands.append(self.operand())
        self.ends()
        return Instruction(op, operands[0].kind, operands)

    def read_shufflevector(self, op):
        operands = [self.operand()]
        for _ in range(2):
            self.expect(",")
            operands.append(self.operand())
        self.ends()
        kind = Vector(operands[2].kind.count, operands[0].kind.item)
        return Instruction(op, kind, operands)

    def read_call(self, op):
        self.words(LINKAGE)
        self.attributes()
        kind = self.type()
        if self.peek() == "(":
            # The parameters of a variadic function.
            self.skip_parentheses()
        if self.peek()[:1] != "@":
            self.fail("a call that isn't of a named function")
        callee = plain(self.name())
        if callee in HINTS:
            return Instruction("hint", VOID, [])
        self.expect("(")
        operands = []
        while not self.has(")"):
            argument = self.type()
            self.attributes()
            operands.append(self.operand(argument))
            if self.peek() != ")":
                self.expect(",")
        if self.sort() == "data" and self.peek().startswith("#"):
            self.at += 1
        self.ends()
        return Instruction(op, kind, operands, words={"callee": callee})

    def read_br(self, op):
        if self.peek() == "label":
            labels, operands = [self.label()], []
        else:
            operands = [self.operand()]
            self.expect(",")
            labels = [self.label()]
            self.expect(",")
            labels.append(self.label())
        self.ends()
        return Instruction(op, VOID, operands, words={"labels": labels})

    def read_switch(self, op):
        value = self.operand()
        self.expect(",")
        words = {"labels": [self.label()], "cases": []}
        self.expect("[")
        while not self.has("]"):
            case = self.operand()
            self.expect(",")
            words["labels"].append(self.label())
            words["cases"].append(case.value)
        self.ends()
        return Instruction(op, VOID, [value], words=words)

    def read_ret(self, op):
        kind = self.type()
        operands = [] if kind == VOID else [self.operand(kind)]
        self.ends()
        return Instruction(op, VOID, operands)

    def read_unreachable(self, op):
        self.ends()
        return Instruction(op, VOID, [])


# ---- The module


def bytes_of(operand):
    """Returns the bytes of a constant in memory."""
    kind, sort = operand.kind, operand.sort
    if sort in ("zero", "undef"):
        return bytes(size_of(kind))
    if sort == "bytes":
        if len(operand.value) != size_of(kind):
            raise Unknown("a constant with another length than its type")
        return operand.value
    if sort == "number":
        size = size_of(kind)
        return operand.value.to_bytes(size, "little")
    if sort == "items" and isinstance(kind, (Array, Vector, Packed)):
        parts = (bytes(8) if it.kind == POINTER else bytes_of(it) for it in operand.value)
        return b"".join(parts)
    raise Unknown(f"a constant of {name_of(kind)}")


def pointers_of(name, value):
    """Returns the offset of each pointer in a constant, and the offset in it to which it points."""
    found, at = [], 0
    for item in value.value if isinstance(value.kind, Packed) else ():
        if item.kind == POINTER:
            place = item.value
            first, *rest = place.operands if item.sort == "expression" else (item,)
            if first.value != name or [it.sort for it in rest] != ["number"]:
                raise Unknown(f"a pointer in the constant {name} that doesn't lead into it")
            if place.op != "getelementptr" or place.words["source"] != I8:
                raise Unknown(f"a pointer in the constant {name}")
            found.append((at, rest[0].value))
        at += size_of(item.kind)
    return found


def read_constant(line):
    name = plain(line.name())
    line.expect("=")
    line.words(LINKAGE)
    line.expect("constant")
    value = line.operand()
    alignment = 1
    if line.has(","):
        line.expect("align")
        alignment = line.number()
    line.ends()
    return Constant(name, bytes_of(value), alignment, pointers_of(name, value))


def read_head(line):
    """Reads `define` or `declare`, up to the parameters."""
    is_internal = False
    while line.peek() in LINKAGE:
        is_internal = line.take() in ("internal", "private") or is_internal
    line.attributes()
    result = line.type()
    name = plain(line.name())
    parameters = []
    line.expect("(")
    while not line.has(")"):
        if line.has("..."):
            parameters.append((VARIADIC, ""))
            continue
        kind = line.type()
        line.attributes()
        parameters.append((kind, plain(line.take()) if line.sort() == "name" else ""))
        if line.peek() != ")":
            line.expect(",")
    line.words(LINKAGE)
    if line.sort() == "data":
        line.take()
    return Function(name, result, parameters, is_internal)


def read_body(function, lines):
    """Reads the lines of a function, up to its end."""
    block = None
    for text in lines:
        if text == "}":
            break
        if not text.strip():
            continue
        label = LABEL.match(text)
        if label:
            block = Block(plain(label[1]))
            function.blocks.append(block)
            continue
        if block is None:
            raise Unknown(f"a block without a label in {function.name}")
        if re.match(r"\s*switch ", text):
            while not text.rstrip().endswith("]") and "], !" not in text:
                text = text.rstrip() + " " + next(lines)
        made = InstructionLine(text).instruction()
        if made.op == "hint":
            continue
        if made.op == "phi":
            block.phis.append(made)
        elif made.op in ("br", "switch", "ret", "unreachable"):
            block.end = made
        else:
            block.body.append(made)


def read_module(text):
    """Returns the module of a text."""
    module, lines = Module(), iter(text.split("\n"))
    layout = triple = None
    for text in lines:
        if not text or text[0] in ";!" or text.startswith(("source_filename", "attributes #")):
            continue
        if text.startswith("target datalayout = "):
            layout = text.split('"')[1]
        elif text.startswith("target triple = "):
            triple = text.split('"')[1]
        elif text.startswith("@"):
            made = read_constant(Line(text))
            module.constants[made.name] = made
        elif text.startswith("declare "):
            line = Line(text)
            line.take()
            made = read_head(line)
            module.declared[made.name] = (made.result, [kind for kind, _ in made.parameters])
        elif text.startswith("define "):
            line = Line(text)
            line.take()
            made = read_head(line)
            line.expect("{")
            read_body(made, lines)
            module.functions[made.name] = made
        else:
            raise Unknown(f"the line: {text[:300]}")
    if layout != LAYOUT or triple != TRIPLE:
        raise Unknown(f"the layout {layout} or the target {triple}")
    return module
