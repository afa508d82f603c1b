"""Writes the header, and the C functions of its calls, which call the translated functions.

In the translated code numbers have their lowest byte first, and pointers and sizes have eight
bytes. If the processor has the same layout, a call passes its arguments unchanged. Otherwise a
number that the call writes goes through eight bytes. Records are converted to this layout before
the call, and back after it.
"""

import dataclasses
import re

from ir import I32, I64, POINTER, VOID, Unknown

DECLARATION = re.compile(r"^(uint32_t|void) (kombilad_\w+)\(([^;]*)\);", re.M)
RECORD = re.compile(r"^typedef struct (\w+) \{\n(.*?)^\} \1;", re.M | re.S)
FIELD = re.compile(r"^\s*(\w+) (\w+)(\[\d+\])?;", re.M)
PARAMETER = re.compile(r"(const )?(\w+) (\*?)(\w+)")
SCALARS = {"size_t": I64, "uint64_t": I64, "uint32_t": I32}
WIDTHS = {"size_t": 8, "uint64_t": 8, "int64_t": 8, "uint32_t": 4}


@dataclasses.dataclass(frozen=True)
class Parameter:
    """A parameter of a call. `count` is an expression for the number of records at a pointer."""

    type: str
    name: str
    is_pointer: bool
    is_constant: bool
    count: str = "1"

    @property
    def written(self):
        constant = "const " if self.is_constant else ""
        return f"{constant}{self.type} {'*' if self.is_pointer else ''}{self.name}"


@dataclasses.dataclass(frozen=True)
class Call:
    result: str
    name: str
    parameters: tuple


def without_comments(text):
    return re.sub(r"/\*.*?\*/", " ", text, flags=re.S)


def portable_header(header, head):
    """Returns the header with the sizes in records as numbers of 64 bits. So a record has the same
    layout on every processor."""

    def widened(match):
        return match[0].replace("size_t ", "uint64_t ")

    return head + RECORD.sub(widened, header)


def calls_of(header):
    """Returns the calls that a header declares."""
    found = []
    for result, name, text in DECLARATION.findall(without_comments(header)):
        parts = [it.strip() for it in " ".join(text.split()).split(",") if it.strip() != "void"]
        parameters = []
        for part in parts:
            match = PARAMETER.fullmatch(part)
            if not match:
                raise Unknown(f"the parameter `{part}` of {name}")
            parameters.append(Parameter(match[2], match[4], bool(match[3]), bool(match[1])))
        names = {it.name for it in parameters}
        parameters = [
            dataclasses.replace(it, count=f"{it.name}_len") if f"{it.name}_len" in names else it
            for it in parameters
        ]
        found.append(Call(result, name, tuple(parameters)))
    return found


@dataclasses.dataclass(frozen=True)
class Field:
    """A part of a record: a number, or bytes that have no order."""

    width: int
    is_number: bool


def records_of(header):
    """Returns the parts of each record. A record in another one has to be declared before it."""
    found = {}
    for name, body in RECORD.findall(without_comments(header)):
        parts = []
        for kind, _, many in FIELD.findall(body):
            if kind == "uint8_t":
                parts.append(Field(int(many.strip("[]") or 1), False))
            elif kind in WIDTHS and not many:
                parts.append(Field(WIDTHS[kind], True))
            elif kind in found and not many:
                parts += found[kind]
            else:
                raise Unknown(f"the fields of {name}")
        found[name] = tuple(parts)
    return found


def has_numbers(parts):
    return any(it.is_number for it in parts)


def check(call, function):
    """Checks that a translated function has the parameters and the result of the call."""
    wanted = [POINTER if it.is_pointer else SCALARS.get(it.type) for it in call.parameters]
    result = VOID if call.result == "void" else I32
    if [kind for kind, _ in function.parameters] != wanted or function.result != result:
        raise Unknown(f"the parameters of {call.name} aren't those of the header")


def record_functions(name, parts):
    """Returns the function that converts records to the byte order of the code, or back."""
    offset, lines = 0, []
    for part in parts:
        if part.is_number:
            lines.append(f"        reverse(p + {offset}, {part.width});")
        offset += part.width
    return "\n".join(
        [
            f"static void order_{name}(void *records, size_t count) {{",
            "    P p = (P)records;",
            f"    for (; count; count--, p += {offset}) {{",
            *lines,
            "    }",
            "}",
        ]
    )


HELPERS = """\
#if !defined(__BYTE_ORDER__) || !defined(__ORDER_LITTLE_ENDIAN__)
/* Whether a number lies in memory with its lowest byte first. */
static bool is_little(void) {
    const u16 one = 1;
    return *(const u8 *)&one == 1;
}
#define IS_LITTLE is_little()
#else
#define IS_LITTLE (__BYTE_ORDER__ == __ORDER_LITTLE_ENDIAN__)
#endif

/* Reverses the bytes of a number. */
static void reverse(P p, int width) {
    int at;
    for (at = 0; at < width / 2; at++) {
        u8 kept = p[at];
        p[at] = p[width - 1 - at];
        p[width - 1 - at] = kept;
    }
}"""


class Wrapper:
    """Writes the C function of a call."""

    def __init__(self, call, callee, records):
        self.call, self.callee, self.records = call, callee, records
        self.declared, self.before, self.after, self.copies = [], [], [], []

    def argument(self, it):
        """Returns the argument for a parameter, and adds the lines before and after the call."""
        if not it.is_pointer:
            return it.name
        if it.type in ("size_t", "uint64_t") and not it.is_constant:
            self.declared.append(f"u8 {it.name}_bytes[8];")
            self.before.append(f"st_u64({it.name}_bytes, *{it.name});")
            self.after.append(f"*{it.name} = ({it.type})ld_u64({it.name}_bytes);")
            return f"{it.name}_bytes"
        if it.type != "uint8_t" and it.type not in self.records:
            raise Unknown(f"the parameter {it.name} of {self.call.name}")
        if it.type == "uint8_t" or not has_numbers(self.records[it.type]):
            return f"(P){it.name}"
        order = f"order_{it.type}"
        if not it.is_constant:
            line = f"if (!IS_LITTLE) {order}({it.name}, {it.count});"
            self.before.append(line)
            self.after.append(line)
            return f"(P){it.name}"
        return self.copied(it, order)

    def copied(self, it, order):
        """Returns the argument for constant records. They are copied if the byte order differs."""
        copy = f"{it.name}_copy"
        self.declared.append(f"{it.type} *{copy} = NULL;")
        free_earlier = "".join(f"{line}\n            " for line in self.freed)
        self.copies.append(
            (
                copy,
                f"""if (!IS_LITTLE && {it.count}) {{
        if ({it.count} <= PTRDIFF_MAX / sizeof *{copy})
            {copy} = ({it.type} *)KOMBILAD_MALLOC({it.count} * sizeof *{copy});
        if (!{copy}) {{
            {free_earlier}return KOMBILAD_NO_MEMORY;
        }}
        memcpy({copy}, {it.name}, {it.count} * sizeof *{copy});
        {order}({copy}, {it.count});
    }}""",
            )
        )
        return f"{copy} ? (P){copy} : (P){it.name}"

    @property
    def freed(self):
        """Returns the lines that free the copies."""
        return [f"if ({copy}) KOMBILAD_FREE({copy});" for copy, _ in self.copies]

    def write(self):
        call = self.call
        parts = [self.argument(it) for it in call.parameters]
        plain = [f"(P){it.name}" if it.is_pointer else it.name for it in call.parameters]
        head = f"{call.result} {call.name}({', '.join(it.written for it in call.parameters) or 'void'}) {{"
        value = "return " if call.result != "void" else ""
        straight = f"    {value}{self.callee}({', '.join(plain)});"
        if not self.declared and not self.before and not self.copies:
            return "\n".join([head, straight, "}"])
        result = [f"    {call.result} result;"] if value else []
        return "\n".join(
            [
                head,
                "#if LITTLE && UINTPTR_MAX == UINT64_MAX",
                straight,
                "#else",
                *(f"    {it}" for it in self.declared),
                *result,
                *(f"    {text}" for _, text in self.copies),
                *(f"    {it}" for it in self.before),
                f"    {'result = ' if value else ''}{self.callee}({', '.join(parts)});",
                *(f"    {it}" for it in self.after + self.freed),
                *(["    return result;"] if value else []),
                "#endif",
                "}",
            ]
        )


def write_wrappers(header, module, names):
    """Returns the functions of the header's calls, after the helpers that they need."""
    calls, records = calls_of(header), records_of(header)
    exported = {name for name, it in module.functions.items() if not it.is_internal}
    declared = {it.name for it in calls}
    if exported != declared:
        raise Unknown(f"only one of the module and the header has {sorted(exported ^ declared)}")
    texts = []
    for call in calls:
        check(call, module.functions[call.name])
        texts.append(Wrapper(call, names[call.name], records).write())
    body = "\n\n".join(texts)
    orders = [
        record_functions(name, parts) for name, parts in records.items() if f"order_{name}(" in body
    ]
    if orders:
        helpers = "\n\n".join([HELPERS, *orders])
        body = f"#if !(LITTLE && UINTPTR_MAX == UINT64_MAX)\n{helpers}\n#endif\n\n{body}"
    return body + "\n"
