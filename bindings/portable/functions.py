"""Writes a function: its variables, blocks, phis, and statements."""

import dataclasses
import re

from instructions import Pure, constant, in_array, stored_name
from ir import I8, I32, I64, POINTER, VARIADIC, VOID, Integer, Struct, Unknown, Vector
from ir import name_of, stored_bytes
from values import Expression, c_type, has_lanes, lanes_of, literal, pointer, widened

# Calls that are written as statements.
TRAP = "llvm.trap"
MEMORY = re.compile(r"llvm\.(?:memcpy\.p0\.p0|memmove\.p0\.p0|memset\.p0)\.i64")
# The functions of the prelude that the module may declare: their results and parameters.
PAIR = Struct((I64, I64))
ALLOCATING = {
    "rattle_alloc": (PAIR, [I64, I64]),
    "rattle_realloc": (PAIR, [POINTER, I64, I64, I64]),
    "rattle_dealloc": (None, [POINTER]),
}
# The functions of posix.c, by which a program calls the system.
HOST = {
    "__sysv_signal": (I64, [I32, I64]),
    "__xpg_strerror_r": (I32, [I32, POINTER, I64]),
    "chmod": (I32, [POINTER, I32]),
    "clock_gettime": (I32, [I32, POINTER]),
    "close": (I32, [I32]),
    "fchmod": (I32, [I32, I32]),
    "fdatasync": (I32, [I32]),
    "flock": (I32, [I32, I32]),
    "fsync": (I32, [I32]),
    "ftruncate": (I32, [I32, I64]),
    "futimens": (I32, [I32, POINTER]),
    "getdents64": (I64, [I32, POINTER, I64]),
    "getentropy": (I32, [POINTER, I64]),
    "getpid": (I32, []),
    "isatty": (I32, [I32]),
    "link": (I32, [POINTER, POINTER]),
    "lseek": (I64, [I32, I64, I32]),
    "mkdir": (I32, [POINTER, I32]),
    "open": (I32, [POINTER, I32, VARIADIC]),
    "pread": (I64, [I32, POINTER, I64, I64]),
    "rattle_arg": (I64, [I64, POINTER, I64]),
    "rattle_env": (I64, [POINTER, POINTER, I64]),
    "rattle_errno": (I32, []),
    "rattle_open_dir_at": (I32, [I32, POINTER]),
    "rattle_set_errno": (VOID, [I32]),
    "read": (I64, [I32, POINTER, I64]),
    "readlink": (I64, [POINTER, POINTER, I64]),
    "realpath": (POINTER, [POINTER, POINTER]),
    "rename": (I32, [POINTER, POINTER]),
    "rmdir": (I32, [POINTER]),
    "statx": (I32, [I32, POINTER, I32, I32, POINTER]),
    "symlink": (I32, [POINTER, POINTER]),
    "unlink": (I32, [POINTER]),
    "unlinkat": (I32, [I32, POINTER, I32]),
    "write": (I64, [I32, POINTER, I64]),
}
EXTERNALS = {**ALLOCATING, **HOST}
WIDTH = 100


def is_intrinsic(name):
    return name.startswith("llvm.")


def host_name(name):
    """Returns the C name of a function of HOST: `host_`, and its name in POSIX."""
    return "host_" + re.sub("^(rattle_|__sysv_|__xpg_)", "", name)


def host_declarations(code):
    """Yields the declaration of each function of HOST that a text calls."""
    called = set(re.findall(r"\bhost_\w+", code))
    for name, (result, parameters) in HOST.items():
        if host_name(name) in called:
            # The variadic parameter is the mode of `open`, which is 0 if a call doesn't have it.
            kinds = [c_type(I32 if it == VARIADIC else it) for it in parameters]
            yield f"{c_type(result)} {host_name(name)}({', '.join(kinds) or 'void'});"


def is_statement(made):
    """Returns whether an instruction has an effect, in addition to its value."""
    if made.op == "call":
        callee = made.words["callee"]
        if MEMORY.fullmatch(callee):
            length = made.operands[2]
            return length.sort != "number" or length.value > 0
        return not is_intrinsic(callee) or callee == TRAP
    return made.op in ("store", "br", "switch", "ret", "unreachable")


@dataclasses.dataclass
class Move:
    """An assignment on the edge from one block to another."""

    target: str
    value: Expression
    kind: str


class Writer:
    """Writes the body of one function. `names` has the C names of functions and constants, and
    `copies` the pointers that are kept as numbers."""

    def __init__(self, function, names, constants, structs, copies):
        self.function, self.names, self.constants = function, names, constants
        self.structs, self.copies = structs, copies
        self.wide = copies.locals[function.name]
        self.pure = Pure(self.operand, self.wide)
        self.lines, self.declared, self.arrays = [], {}, []
        self.known, self.pending, self.kinds = {}, {}, {}
        self.parameters = []
        self.count = 0

    # ---- The needed instructions

    def find_uses(self):
        """Finds which instructions are needed, and how often and in which block each value is
        used."""
        blocks = self.function.blocks
        self.made = {}
        home = {}
        for block in blocks:
            for it in [*block.phis, *block.body, block.end]:
                if it is None:
                    raise Unknown(f"a block without an end in {self.function.name}")
                home[it] = block.name
                if it.result is not None:
                    self.made[it.result] = it
        waiting = [it for it in home if is_statement(it)]
        self.needed = set(waiting)
        self.uses = {}
        while waiting:
            user = waiting.pop()
            for place, name in self.locals_of(user):
                self.uses.setdefault(name, []).append(place or home[user])
                source = self.made.get(name)
                if source is not None and source not in self.needed:
                    self.needed.add(source)
                    waiting.append(source)
        self.home = home

    def locals_of(self, made):
        """Yields each local value that an instruction uses. For a phi it comes with the block that
        passes it, otherwise with None."""
        for at, operand in enumerate(made.operands):
            for name in locals_in(operand):
                yield (made.words["labels"][at] if made.op == "phi" else None), name

    # ---- Values

    def new_name(self, letter):
        self.count += 1
        return f"{letter}{self.count}"

    def declare(self, kind, letter="v"):
        """Returns a new variable of a C type."""
        name = self.new_name(letter)
        self.declared.setdefault(kind, []).append(name)
        return name

    def type_of(self, kind):
        if isinstance(kind, Struct) or has_lanes(kind):
            self.structs[c_type(kind)] = kind if isinstance(kind, Struct) else lanes_of(kind)
        return c_type(kind)

    def operand(self, operand):
        """Returns the expression of an operand."""
        if operand.sort == "local":
            if operand.value in self.pending:
                return self.pending.pop(operand.value)
            if operand.value not in self.known:
                raise Unknown(f"the value %{operand.value} of {self.function.name}")
            return self.known[operand.value]
        if operand.sort == "global":
            if operand.value not in self.constants:
                raise Unknown(f"the address of {operand.value} in {self.function.name}")
            name = self.names[operand.value]
            size = len(self.constants[operand.value].data)
            return in_array(f"(P){name}", 0, size)
        if operand.sort == "expression":
            return self.pure.write(operand.value)
        if isinstance(operand.kind, Struct):
            self.type_of(operand.kind)
        return constant(operand, self.operand)

    def take(self, made, value, block):
        """Keeps the value of an instruction for its use: as an expression, or in a variable."""
        kind = self.type_of_value(made.kind, value)
        uses = self.uses.get(made.result, [])
        is_place = not value.reads and not value.loads and value.within
        if is_place or (value.text in self.names_known() and not value.loads):
            self.known[made.result] = value
        elif isinstance(made.kind, Vector) or isinstance(made.kind, Struct) and not value.fields:
            # Otherwise each use of a part would write the whole expression.
            self.assign(made.result, kind, value)
        elif uses == [block.name] and not value.is_large:
            self.pending[made.result] = value
        else:
            self.assign(made.result, kind, value)

    def names_known(self):
        return self.parameters

    def assign(self, result, kind, value):
        name = self.declare(kind)
        self.lines.append(f"{name} = {value.text};")
        self.known[result] = Expression(name, frozenset([name]), is_wide=value.is_wide)

    def type_of_value(self, kind, value):
        return "u64" if value.is_wide else self.type_of(kind)

    def settle(self):
        """Assigns each pending load to a variable, before a statement that may change memory."""
        for name in list(self.pending):
            value = self.pending[name]
            if value.loads:
                del self.pending[name]
                self.assign(name, self.type_of_value(self.made[name].kind, value), value)

    # ---- Statements

    def write_store(self, made):
        value, place = (self.operand(it) for it in made.operands)
        place = pointer(place)
        self.settle()
        kind = made.operands[0].kind
        if kind == I8:
            self.lines.append(f"*{place.operand} = (u8){value.operand};")
            return
        if isinstance(kind, Struct):
            raise Unknown(f"a store of a struct: {made.line}")
        size = stored_bytes(kind)
        is_number = isinstance(kind, Integer) or value.is_wide
        name = f"u{size * 8}" if is_number else stored_name(kind)
        self.lines.append(f"st_{name}({place.text}, {value.text});")

    def write_memory(self, made):
        """Writes memcpy, memmove and memset. For no bytes they don't use a pointer."""
        callee = made.words["callee"].split(".")[1]
        if made.operands[3].value:
            raise Unknown(f"a volatile access: {made.line}")
        first, second, size = (pointer(self.operand(it)) for it in made.operands[:3])
        self.settle()
        length = made.operands[2]
        if length.sort == "number":
            self.lines.append(f"{callee}({first.text}, {second.text}, {length.value});")
            return
        name = {"memcpy": "copy_bytes", "memmove": "move_bytes", "memset": "fill_bytes"}[callee]
        self.lines.append(f"{name}({first.text}, {second.text}, {size.text});")

    def write_call(self, made):
        callee = made.words["callee"]
        if callee == TRAP:
            self.settle()
            self.lines.append("abort();")
            return
        copied = self.copies.parameters.get(callee, ())
        parts = [
            self.passed(it, self.operand(it), at in copied) for at, it in enumerate(made.operands)
        ]
        self.settle()
        name = self.names.get(callee, callee)
        if callee in HOST and callee not in self.names:
            name = host_name(callee)
            if VARIADIC in HOST[callee][1] and len(parts) < len(HOST[callee][1]):
                parts.append(literal("0u"))
        text = f"{name}({', '.join(it.text for it in parts)})"
        kind = self.type_of(made.kind)
        if made.result is None or made.result not in self.uses:
            self.lines.append(text + ";")
        elif callee in self.copies.results:
            self.assign(made.result, "u64", Expression(text, is_wide=True))
        else:
            self.assign(made.result, kind, literal(text))

    def passed(self, operand, value, is_copied):
        """Returns a value as it is assigned, passed or returned: a pointer of C, unless it is kept as
        a number."""
        if operand.kind != POINTER:
            return value
        return widened(value) if is_copied else pointer(value)

    def write_alloca(self, made):
        """Declares an array. Its type has its alignment up to 8, since some compilers don't support
        a greater alignment on the stack."""
        size, alignment = made.words["size"], made.words["alignment"]
        name = self.new_name("a")
        if alignment > 16:
            raise Unknown(f"an alignment of {alignment}: {made.line}")
        if alignment == 16:
            self.arrays.append(f"ARRAY_16({max(size, 1)}) {name};")
            self.known[made.result] = in_array(f"BYTES_16({name})", 0, size)
            return
        aligned = "ALIGNED(8) " if alignment == 8 else ""
        self.arrays.append(f"{aligned}ARRAY(u{alignment * 8}, {max(size, 1)}) {name};")
        self.known[made.result] = in_array(f"{name}.b", 0, size)

    # ---- Edges

    def moves(self, source, label):
        """Returns the lines that assign the phis of a block, and jump to it."""
        moves = []
        for phi in self.blocks[label].phis:
            if phi not in self.needed:
                continue
            values = [
                it for it, origin in zip(phi.operands, phi.words["labels"]) if origin == source.name
            ]
            if not values or any(it != values[0] for it in values):
                raise Unknown(f"the values of a phi: {phi.line}")
            target = self.known[phi.result]
            value = self.passed(phi, self.operand(values[0]), target.is_wide)
            if value.text != target.text:
                moves.append(Move(target.text, value, self.type_of_value(phi.kind, target)))
        lines = []
        while moves:
            free = next(
                (
                    it
                    for it in moves
                    if not any(it.target in other.value.reads for other in moves if other is not it)
                ),
                None,
            )
            if free is None:
                # Another move reads each target. The moves that read this one are computed first.
                free = moves[0]
                for other in moves[1:]:
                    if free.target in other.value.reads:
                        kept = self.declare(other.kind, "t")
                        lines.append(f"{kept} = {other.value.text};")
                        other.value = Expression(kept, frozenset([kept]))
            lines.append(f"{free.target} = {free.value.text};")
            moves.remove(free)
        return lines + [f"goto {self.labels[label]};"]

    def write_end(self, block):
        end, labels = block.end, block.end.words.get("labels", [])
        if end.op == "unreachable":
            self.lines.append("UNREACHABLE();")
        elif end.op == "ret":
            is_copied = self.function.name in self.copies.results
            values = [self.passed(it, self.operand(it), is_copied) for it in end.operands]
            self.lines.append("".join(["return", *(f" {it.text}" for it in values), ";"]))
        elif end.op == "switch":
            self.write_switch(block, labels)
        elif len(labels) == 1 or labels[0] == labels[1]:
            self.lines += self.moves(block, labels[0])
        else:
            condition = self.operand(end.operands[0])
            self.write_if(condition, self.moves(block, labels[0]), self.moves(block, labels[1]))

    def write_if(self, condition, first, second):
        """Writes the lines of one branch in an if, and those of the other after it. The latter is
        the branch to the next block, if one goes there."""
        if first == [f"goto {self.next_label};"] and first != second:
            first, second, condition = second, first, Expression(f"!{condition.operand}")
        self.lines += [f"if ({condition.text}) {{", *first, "}", *second]

    def write_switch(self, block, labels):
        operand = block.end.operands[0]
        if operand.kind.bits > 64:
            raise Unknown(f"a switch of {operand.kind.bits} bits in {self.function.name}")
        value = self.operand(operand)
        ways = {}
        for case, label in zip(block.end.words["cases"], labels[1:]):
            ways.setdefault(label, []).append(case)
        suffix = {8: "", 16: "", 32: "u", 64: "ull"}[max(8, stored_width(operand.kind))]
        self.lines.append(f"switch ({value.text}) {{")
        for label, cases in ways.items():
            if label == labels[0]:
                continue
            self.lines.append(" ".join(f"case {it}{suffix}:" for it in cases))
            self.lines += self.moves(block, label)
        self.lines += ["default:", *self.moves(block, labels[0]), "}"]

    # ---- The whole function

    def head(self):
        """Returns the function's result, name and parameters. The first lines of its body name the
        parameters that it doesn't use."""
        function = self.function
        parts, self.parameters, self.unused = [], set(), []
        copied = self.copies.parameters[function.name]
        for at, (kind, name) in enumerate(function.parameters):
            text = self.new_name("p")
            self.known[name] = Expression(text, frozenset(), is_wide=at in copied)
            parts.append(f"{self.type_of_value(kind, self.known[name])} {text}")
            self.parameters.add(text)
            if name not in self.uses:
                self.unused.append(f"(void){text};")
        arguments = ", ".join(parts) or "void"
        is_copied = function.name in self.copies.results
        result = "u64" if is_copied else self.type_of(function.result)
        return f"static {result} {self.names[function.name]}({arguments})"

    def write(self):
        """Returns the head of the function and its lines."""
        self.find_uses()
        head = self.head()
        blocks = self.function.blocks
        self.blocks = {it.name: it for it in blocks}
        self.labels = {it.name: f"L{at}" for at, it in enumerate(blocks)}
        for block in blocks:
            for phi in block.phis:
                if phi in self.needed:
                    is_wide = phi.result in self.wide
                    name = self.declare("u64" if is_wide else self.type_of(phi.kind))
                    self.known[phi.result] = Expression(name, frozenset([name]), is_wide=is_wide)
        for block in self.ordered(blocks):
            self.lines.append(f"{self.labels[block.name]}:")
            for made in block.body:
                self.write_instruction(made, block)
            self.write_end(block)
            if self.pending:
                raise Unknown(f"values without a use in {self.function.name}: {[*self.pending]}")
        return head, self.tidied()

    def ordered(self, blocks):
        """Yields the blocks so that each value is computed before the text that uses it: dominating
        blocks come first. Sets `next_label` to the label of the next block."""
        order, seen = [], set()
        stack = [(blocks[0], iter(self.followers(blocks[0])))]
        seen.add(blocks[0].name)
        while stack:
            block, rest = stack[-1]
            for label in rest:
                if label not in seen:
                    seen.add(label)
                    stack.append((self.blocks[label], iter(self.followers(self.blocks[label]))))
                    break
            else:
                order.append(block)
                stack.pop()
        order.reverse()
        for at, block in enumerate(order):
            self.next_label = self.labels[order[at + 1].name] if at + 1 < len(order) else None
            yield block

    def followers(self, block):
        return reversed(block.end.words.get("labels", []))

    def write_instruction(self, made, block):
        if made not in self.needed and made.op != "alloca":
            return
        if made.op == "alloca":
            if block is not self.function.blocks[0]:
                raise Unknown(f"an array made outside of the first block: {made.line}")
            if made in self.needed:
                self.write_alloca(made)
        elif made.op == "store":
            self.write_store(made)
        elif made.op == "call" and MEMORY.fullmatch(made.words["callee"]):
            self.write_memory(made)
        elif is_statement(made):
            self.write_call(made)
        else:
            value = self.pure.write(made)
            self.take(made, value, block)

    def tidied(self):
        """Returns the lines of the body: without a goto to the line below it, and without labels
        that no goto names."""
        lines = []
        for at, line in enumerate(self.lines):
            after = self.lines[at + 1] if at + 1 < len(self.lines) else ""
            if line.startswith("goto ") and after == line[len("goto ") : -1] + ":":
                continue
            lines.append(line)
        used = {line[len("goto ") : -1] for line in lines if line.startswith("goto ")}
        lines = [it for it in lines if not re.fullmatch(r"L\d+:", it) or it[:-1] in used]
        head = list(self.arrays)
        for kind, names in self.declared.items():
            head += wrapped(f"{kind} ", names)
        return head + self.unused + lines


def stored_width(kind):
    width = 8
    while width < kind.bits:
        width *= 2
    return width


def wrapped(start, names):
    """Returns declarations of variables, in lines that aren't too long."""
    lines, line = [], ""
    for name in names:
        if line and len(line) + len(name) > WIDTH - 4 - len(start):
            lines.append(start + line + ";")
            line = ""
        line = f"{line}, {name}" if line else name
    return lines + [start + line + ";"]


def locals_in(operand):
    """Yields the local values that an operand names."""
    if operand.sort == "local":
        yield operand.value
    elif operand.sort == "items":
        for item in operand.value:
            yield from locals_in(item)


def check_declared(module, known):
    """Checks that the functions that the module declares are known."""
    for name, (result, parameters) in module.declared.items():
        if is_intrinsic(name):
            continue
        if name not in known:
            raise Unknown(f"the function {name}, which isn't defined")
        wanted_result, wanted = known[name]
        if parameters != wanted or (wanted_result and result != wanted_result):
            raise Unknown(f"the function {name} of {name_of(result)}")
