"""Finds the pointers that a module copies from memory to memory.

The optimizer may copy eight bytes as a pointer, although they are a part of something else in the
same place of an enum. A pointer of C has less room for them on processors of 32 bits. So a value
that comes from memory and may be written to memory is kept as a number of 64 bits, also in
parameters and results, and becomes a pointer where it is used as one.
"""

from ir import POINTER

PASSING = ("phi", "select", "freeze")


def instructions_of(function):
    for block in function.blocks:
        yield from block.phis
        yield from block.body
        yield block.end


def pointers_in(*operands):
    """Yields the names of the local pointers among operands."""
    return (it.value for it in operands if it.kind == POINTER and it.sort == "local")


class Copies:
    """The values of each function that are kept as numbers, by the function's name: local values,
    the indices of parameters, and whether the result is one."""

    def __init__(self, functions):
        self.functions = functions
        self.made = {
            name: {it.result: it for it in instructions_of(function) if it.result is not None}
            for name, function in functions.items()
        }
        self.locals = {name: set() for name in functions}
        self.parameters = {name: set() for name in functions}
        self.results = set()
        while any([self.grows(name) for name in functions]):
            pass

    def grows(self, name):
        """Adds what a function copies by what is known of the others. Returns whether it did."""
        function, made = self.functions[name], self.made[name]
        before = len(self.locals[name]), len(self.parameters[name]), len(self.results)
        waiting = list(self.written(name))
        found = self.locals[name]
        while waiting:
            value = waiting.pop()
            if value in found:
                continue
            source = made.get(value)
            if source is None or source.op in ("load", *PASSING) or self.is_call(source):
                found.add(value)
            if source is not None and source.op in PASSING:
                waiting += pointers_in(*source.operands)
        for at, (_, parameter) in enumerate(function.parameters):
            if parameter in found and function.is_internal:
                self.parameters[name].add(at)
            elif parameter in found:
                found.discard(parameter)
        self.results |= {
            made[it].words["callee"] for it in found if it in made and made[it].op == "call"
        }
        return before != (len(found), len(self.parameters[name]), len(self.results))

    def is_call(self, made):
        """Returns whether an instruction calls a function of the module that isn't an export."""
        callee = self.functions.get(made.words.get("callee"))
        return made.op == "call" and callee is not None and callee.is_internal

    def written(self, name):
        """Yields the names of the pointers that a function writes or hands on."""
        for made in instructions_of(self.functions[name]):
            if made.op == "store":
                yield from pointers_in(made.operands[0])
            elif made.op == "insertvalue":
                yield from pointers_in(made.operands[1])
            elif made.op == "ret" and name in self.results:
                yield from pointers_in(*made.operands)
            elif made.op == "call":
                for at in self.parameters.get(made.words["callee"], ()):
                    yield from pointers_in(made.operands[at])
