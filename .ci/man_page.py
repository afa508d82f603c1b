"""Makes a man page in mdoc(7) from the help of a program."""

import re

from help_text import (
    MAKER,
    NotMade,
    as_sentence,
    continued,
    details,
    ends_sentence,
    first_sentence,
    listed,
)

# What the page refers to: programs with their section, in order, and specifications.
PROGRAMS = (("cmp", 1), ("dot", 1), ("jq", 1), ("sha256sum", 1))
SPECIFICATIONS = (
    ("IPLD codecs", "https://ipld.io/specs/codecs/"),
    ("CAR files", "https://ipld.io/specs/transport/car/"),
    ("Content identifiers (CIDs)", "https://github.com/multiformats/cid"),
    ("IPFS", "https://specs.ipfs.tech/"),
)

# The columns of the page and of its source, the indentation of its text and of a display in it.
COLUMNS, INDENT, OFFSET = 80, 5, 2
ROOM = COLUMNS - INDENT - OFFSET
# The headings that are sections of the page.
STATUS, EXAMPLES = "Exit status", "Examples"

ROFF = {"\\": "\\e", "-": "\\-", "'": "\\(aq", "`": "\\(ga", "^": "\\(ha", "~": "\\(ti"}
# What mdoc takes as punctuation after a macro.
CLOSING = ".,:;)]?!"


def literal(text):
    """Returns a text that roff prints as it is."""
    return "".join(ROFF.get(it, it if it.isascii() else f"\\[u{ord(it):04X}]") for it in text)


def escaped(text):
    """Returns a text that roff prints as it is, with the apostrophes inside words as such."""
    return "'".join(map(literal, re.split(r"(?<=\w)'(?=\w)", text)))


def word(text):
    """Returns an argument of a macro."""
    is_read = re.fullmatch(r"[A-Z][a-z][a-z]?|[|.,:;()\[\]?!]", text)
    return "\\&" * bool(is_read) + literal(text).replace('"', "\\(dq")


def guarded(line):
    """Returns a line of text, which would be a macro if it began with a period."""
    return "\\&" + line if line.startswith(".") else line


def marked(text, program):
    """Returns the macro for a word that is an option or the program, and None for any other."""
    found = re.fullmatch(rf"([(\[\"']*)(--?[A-Za-z][\w-]*|{re.escape(program)})([^\w\s-]*)", text)
    if not found:
        return None
    before, name, after = found.groups()
    quotes = after.rstrip(CLOSING)
    return "." + " ".join(
        [
            *(["No", word(before), "Ns"] if before else []),
            *(["Fl", word(name[1:])] if name[0] == "-" else ["Nm"]),
            *(["Ns", "No", word(quotes)] if quotes else []),
            *after[len(quotes) :],
        ]
    )


def prose(text, program):
    """Returns a paragraph: a line for each sentence, and options and the program as macros."""
    lines, line = [], ""
    for each in text.split():
        macro, part = marked(each, program), escaped(each)
        if not ends_sentence(each) and re.search(r"[.!?][)\]\"']*$", each):
            part += "\\&"
        if line and (macro or len(line) + len(part) + 1 > COLUMNS):
            lines.append(guarded(line))
            line = ""
        if macro:
            lines.append(macro)
            continue
        line = f"{line} {part}".strip()
        if ends_sentence(each):
            lines.append(guarded(line))
            line = ""
    return lines + [guarded(line)] * bool(line)


SYNTAX = re.compile(
    r"(?P<option>--?\w[\w-]*)"
    r"|(?P<start>[<\[])(?P<name>[^<>\[\]]+)[>\]](?P<dots>\.\.\.)?"
    r"|(?P<other>\.\.\.|\S)"
)


def syntax(text):
    """Returns the macros for the arguments of a command line, a list of words for each."""
    found = []
    for part in SYNTAX.finditer(text):
        name, dots = part["name"], ["..."] if part["dots"] else []
        if part["option"]:
            found.append(["Fl", word(part["option"][1:])])
        elif part["other"] and found:
            found[-1].append(part["other"])
        elif part["other"]:
            raise NotMade(f"this is not a usage of clap: {text}")
        elif part["start"] == "[":
            found.append(["Op", "Ar", word("options" if name == "OPTIONS" else name), *dots])
        elif found and found[-1][0] == "Fl" and "Ar" not in found[-1]:
            found[-1] += ["Ar", word(name), *dots]
        else:
            found.append(["Ar", word(name), *dots])
    return found


def usage(command):
    """Returns the lines of the usage, each as macros. A line that only names commands is left out."""
    below = re.compile(r"[<\[]COMMAND[>\]]")
    for line in command.usage:
        rest = line[len(command.path) :].strip()
        if command.commands and below.fullmatch(rest):
            continue
        names = [".Cm " + " ".join(map(word, command.words[1:]))] if command.words[1:] else []
        yield [".Nm", *names, *("." + " ".join(it) for it in syntax(rest))]


def head(argument):
    """Returns the line of a list for an argument."""
    words = []
    for part in syntax(argument.spec):
        words += ["Oo", *part[1:], "Oc"] if part[0] == "Op" else part
    return words


def term(text):
    """Returns the line of a list for a term, with options as such."""
    words, is_plain = [], False
    for each in text.split():
        is_option = re.fullmatch(r"--?[A-Za-z][\w-]*", each)
        if is_option:
            words += ["Fl", word(each[1:])]
        else:
            words += [word(each)] if is_plain else ["Sy", word(each)]
        is_plain = not is_option
    return words


def tagged(rows, width="Ds", is_compact=False):
    """Returns a list: each row has the words of its head, and its lines."""
    return [
        f".Bl -tag -width {width}{' -compact' * is_compact}",
        *(line for words, lines in rows for line in [" ".join([".It", *words]), *lines]),
        ".El",
    ]


def arguments(found, program):
    return tagged([(head(it), prose(details(it), program)) for it in found])


def rows(lines):
    """Returns the terms and texts of a list, or None if the lines aren't a list."""
    found, column = [], None
    for line in lines:
        entry = re.fullmatch(r"(\S+(?: \S+)*) {2,}(\S+(?: \S+)*)", line)
        more = re.fullmatch(r"( +)(\S+(?: \S+)*)", line)
        if entry and column in (None, entry.start(2)):
            column = entry.start(2)
            found.append([entry[1], entry[2]])
        elif found and more and len(more[1]) == column:
            found[-1][1] += " " + more[2]
        else:
            return None
    return found


def spaces(line, is_command):
    """Yields where words begin, in a command only outside of quotes."""
    quote = ""
    for at, each in enumerate(line, 1):
        if is_command and each in (quote or "'\""):
            quote = "" if quote else each
        elif each == " " and not quote:
            yield at


def command_end(line, indent):
    """Returns where the first line of a command ends: before an operator, or else a word."""
    found = [it for it in spaces(line, True) if len(indent) < it < ROOM]
    operators = [it for it in found if re.match(r"[|&]", line[it:])]
    if not found:
        raise NotMade(f"the page has no room for a word of an example: {line}")
    return (operators or found)[-1]


def output_end(line, indent):
    """Returns where the first line of an output ends: before a word, or else after a sign."""
    found = [it for it in spaces(line, False) if len(indent) < it <= ROOM + 1]
    signs = [it.end() for it in re.finditer(r"[,:\[{]", line) if len(indent) < it.end() <= ROOM]
    return (found or signs or [ROOM])[-1]


def folded(line):
    """
    Yields a line of a display, or several if it is longer than the page has room for. A tab is
    shown as two blanks.
    """
    line = line.replace("\t", "  ")
    is_command = line.startswith("$ ")
    indent = " " * (len(line) - len(line.lstrip()) + 4)
    while len(line) > ROOM:
        at = command_end(line, indent) if is_command else output_end(line, indent)
        yield line[:at].rstrip() + " \\" * is_command
        line = indent + line[at:]
    yield line


def source(line):
    """Yields a line of a display as roff reads it. A backslash at the end joins two lines."""
    part = ""
    for each in map(literal, line):
        if len(part) + len(each) >= COLUMNS:
            yield guarded(part) + "\\"
            part = ""
        part += each
    yield guarded(part)


def display(lines):
    """Returns lines that are shown as they are, without lines that are too long."""
    shown = [part for line in lines for it in folded(line) for part in source(it)]
    return [f".Bd -literal -offset {OFFSET}n", *shown, ".Ed"]


def indented(lines, program):
    """Returns indented lines of the help as a list, or as they are."""
    found = rows(lines)
    if not found:
        return display(lines)
    width = max(len(name) for name, _ in found)
    width = f"{width}n" if width <= 8 else "Ds"
    return tagged([(term(name), prose(text, program)) for name, text in found], width, True)


def shown(block, program):
    """Returns a block as a part of a section."""
    if block.is_paragraph:
        return prose(" ".join(block.lines), program)
    above = prose(block.heading + ":", program) if block.heading else []
    return above + indented(block.lines, program)


def parted(parts):
    """Returns the lines of parts, with a paragraph between two of them."""
    lines = []
    for part in filter(None, parts):
        lines += [".Pp"] * bool(lines and not part[0].startswith((".Bl", ".Bd"))) + part
    return lines


def common(program):
    """Returns the options that the program and all its commands have."""
    others = [command.options for command in program.all()[1:]]
    return [it for it in program.options if all(it in options for options in others)]


def description(program):
    """Returns the section about the program."""
    about = f"The commands of {program.name} {continued(as_sentence(program.about))}"
    own = [it for it in program.blocks if it.heading not in (STATUS, EXAMPLES)]
    return parted([prose(about, program.name), *(shown(it, program.name) for it in own)])


def about_command(command, program):
    """Returns the subsection of a command."""
    everywhere, name = common(program), program.name
    own = [it for it in command.options if it not in everywhere]
    kinds = ["arguments"] * bool(command.arguments) + ["options"] * bool(own)
    parts = [*usage(command), prose(as_sentence(command.about), name)]
    parts += [shown(it, name) for it in command.blocks if it.heading not in (STATUS, EXAMPLES)]
    if command.commands:
        parts.append(
            prose(f"Its commands are {listed([it.name for it in command.commands])}.", name)
        )
    if kinds:
        lead = " and ".join(kinds).capitalize() + ":"
        parts.append([lead, *arguments(command.arguments + own, name)])
    return [".Ss " + " ".join(map(word, command.words[1:])), *parted(parts)]


def options(program):
    """Returns the section of the options that aren't those of a single command."""
    everywhere, name = common(program), program.name
    own = [it for it in program.options if it not in everywhere]
    parts = [["The options of a command are in its part of", ".Sx COMMANDS ."]]
    if everywhere:
        parts.append(["Every command also has these options:", *arguments(everywhere, name)])
    if own:
        lead = prose(f"Without a command, {name} has these options:", name)
        parts.append([*lead, *arguments(own, name)])
    return parted(parts)


def statuses(program):
    """Returns the section of exit statuses, first of the program, then of single commands."""
    parts = []
    for command in program.all():
        for block in command.headed(STATUS):
            own = [f"Of {' '.join(map(escaped, command.words))}:"] if command.words[1:] else []
            parts.append(own + indented(block.lines, program.name))
    return parted(parts)


def examples(program):
    """Returns the section of examples, with a subsection for each command."""
    found = [(command, it) for command in program.all() for it in command.headed(EXAMPLES)]
    lines = []
    if any(len(line.replace("\t", "  ")) > ROOM for _, block in found for line in block.lines):
        lines.append("A long line continues on the next line, indented.")
    for command, block in found:
        lines.append(".Ss " + " ".join(map(word, command.words[1:] or command.words)))
        lines += display(block.lines)
    return lines


def see_also():
    lines = [f".Xr {name} {section}" for name, section in PROGRAMS]
    lines = [it + " ," for it in lines[:-1]] + lines[-1:]
    for title, address in SPECIFICATIONS:
        lines += [".Rs", f".%T {title}", f".%U {address}", ".Re"]
    return lines


def page(program, version, date):
    """Returns the man page."""
    name = program.name
    sections = {
        "NAME": [f".Nm {name}", f".Nd {escaped(continued(first_sentence(program.about)))}"],
        "SYNOPSIS": [line for it in program.all() for each in usage(it) for line in each],
        "DESCRIPTION": description(program),
        "COMMANDS": [line for it in program.all()[1:] for line in about_command(it, program)],
        "OPTIONS": options(program),
        "EXIT STATUS": statuses(program),
        "EXAMPLES": examples(program),
        "SEE ALSO": see_also(),
    }
    lines = [
        f'.\\" Made by {MAKER} of what {name} --help prints. Do not edit it.',
        f".Dd {date}",
        f".Dt {name.upper()} 1",
        f".Os {version}",
    ]
    for title, content in sections.items():
        lines += [f".Sh {title}", *content] if content else []
    return "\n".join(lines) + "\n"
