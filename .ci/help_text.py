"""Reads the help of a program, and makes sentences of it. `.ci/manual` has the rules for its text."""

import dataclasses
import os
import re
import subprocess
import tempfile
import textwrap
import typing

# The script that makes the page and the completions.
MAKER = ".ci/manual"
SECONDS_FOR_A_RUN = 60


class NotMade(Exception):
    """The reason why nothing can be made of a help text."""


@dataclasses.dataclass
class Argument:
    """An argument or an option."""

    spec: str
    # The help without what it has in brackets at its end.
    help: str
    default: typing.Optional[str] = None
    choices: list = dataclasses.field(default_factory=list)

    @property
    def names(self):
        """Returns the names of an option, and none for an argument."""
        return re.findall(r"(?:^|, )(--?\w[\w-]*)", self.spec)

    @property
    def values(self):
        """Returns the name of each value, whether it is optional, and whether it can be repeated."""
        found = re.findall(r"([\[<=]+)([^\[\]<>]+)[\]>]+(\.\.\.)?", self.spec)
        return [(name, start[0] == "[", bool(dots)) for start, name, dots in found]

    @property
    def is_folder(self):
        return [name for name, _, _ in self.values] == ["DIR"]


@dataclasses.dataclass
class Block:
    """A paragraph, or indented lines with their heading."""

    heading: str
    lines: list
    is_paragraph: bool = False


@dataclasses.dataclass
class Command:
    """A command, or the program. Its words are those of a command line, without arguments."""

    words: list
    about: str
    usage: list
    arguments: list
    options: list
    blocks: list
    commands: list = dataclasses.field(default_factory=list)

    @property
    def path(self):
        return " ".join(self.words)

    @property
    def name(self):
        return self.words[-1]

    @property
    def valued(self):
        """Returns the options with a value."""
        return [it for it in self.options if it.values]

    def all(self):
        """Returns the command and all commands below it."""
        return [self, *(it for command in self.commands for it in command.all())]

    def headed(self, heading):
        """Returns the blocks with a heading."""
        return [it for it in self.blocks if it.heading == heading]


HELP = re.compile(
    r"(?P<about>.*?)^Usage: (?P<usage>[^\n]*(?:\n +[^\n]*)*)\n+(?P<rest>.*)", re.S | re.M
)
LIST = re.compile(r"(Commands|Arguments|Options):\n((?:(?: [^\n]*)?\n)+)")
# Either lines without indentation, or indented lines with the empty lines between them.
BLOCK = re.compile(r"(?P<plain>(?:[^\s][^\n]*\n)+)|(?P<indented>(?: [^\n]*\n|\n(?=\n* ))+)")
BRACKETS = re.compile(r"(?:^|\s)\[(default|possible values): ([^\[\]]*)\]$")


def printed(words):
    """Returns what a command prints. It runs in an empty folder."""
    with tempfile.TemporaryDirectory() as folder:
        ran = subprocess.run(
            list(map(str, words)),
            cwd=folder,
            env={"PATH": os.environ.get("PATH", os.defpath)},
            stdin=subprocess.DEVNULL,
            stdout=subprocess.PIPE,
            stderr=subprocess.PIPE,
            encoding="utf-8",
            timeout=SECONDS_FOR_A_RUN,
        )
    if ran.returncode or ran.stderr:
        raise NotMade(f"{' '.join(map(str, words))}: status {ran.returncode}, {ran.stderr!r}")
    return ran.stdout


def entries(lines):
    """Returns the specification and the help of each entry in a list of clap."""
    found = []
    for line in lines:
        entry = re.match(r"(?:  |      (?=--))(\S.*)", line)
        if entry:
            spec, _, text = entry[1].partition("  ")
            found.append([spec, text.strip()])
        elif line.strip():
            found[-1][1] = f"{found[-1][1]} {line.strip()}".strip()
    return found


def argument(spec, text):
    """Returns an argument by its entry."""
    made = Argument(spec, text)
    while True:
        found = BRACKETS.search(made.help)
        if not found:
            return made
        made.help = made.help[: found.start()]
        if found[1] == "default":
            made.default = found[2]
        else:
            made.choices = found[2].split(", ")


def blocks(text):
    """Yields the blocks of the text after the options."""
    heading = ""
    for part in BLOCK.finditer(text):
        lines = textwrap.dedent(part[0]).strip("\n").split("\n")
        is_above_indented = text.startswith(" ", part.end())
        if part["indented"]:
            yield Block(heading, lines)
            heading = ""
        elif len(lines) == 1 and lines[0].endswith(":") and is_above_indented:
            heading = lines[0][:-1]
        else:
            yield Block("", lines, is_paragraph=True)


def parsed(text, words):
    """Returns a command by its help, and the names of the commands below it."""
    found = HELP.match(text)
    if not found:
        raise NotMade(f"the help of {' '.join(words) or 'the program'} has no line `Usage: `")
    usage = [it.strip() for it in found["usage"].split("\n")]
    rest, lists = found["rest"], {"Commands": [], "Arguments": [], "Options": []}
    while True:
        part = LIST.match(rest)
        if not part:
            break
        lists[part[1]] = entries(part[2].split("\n"))
        rest = rest[part.end() :]
    command = Command(
        list(words) or usage[0].split()[:1],
        " ".join(found["about"].split()),
        usage,
        [argument(*it) for it in lists["Arguments"]],
        [argument(*it) for it in lists["Options"]],
        list(blocks(rest)),
    )
    names = [re.split("[ ,]", spec)[0] for spec, _ in lists["Commands"]]
    return command, [it for it in names if it != "help"]


def read(program, words=()):
    """Returns a command of a program, with the commands below it."""
    command, names = parsed(printed([program, *words[1:], "--help"]), words)
    command.commands = [read(program, [*command.words, it]) for it in names]
    return command


# ---- Sentences


def ends_sentence(word):
    """Returns whether a sentence can end with a word: `1.`, `(so).`, but not `e.g.` or `..`."""
    is_short = re.match(r"[(\"']*(?:(?:[a-z]\.)+|etc\.)", word)
    return bool(re.search(r"[^.][.!?][)\]}\"']*$", word)) and not is_short


def as_sentence(text):
    return text + "." if text and not re.search(r"[.!?:][)\]}\"']*$", text) else text


def first_sentence(text):
    """Returns the first sentence without its period."""
    words = []
    for word in text.split():
        words.append(word)
        if ends_sentence(word):
            break
    return re.sub(r"\.$", "", " ".join(words))


def continued(text):
    """Returns a sentence as the end of another."""
    return text[:1].lower() + text[1:] if not text[1:2].isupper() else text


def listed(names):
    return f"{', '.join(names[:-1])} and {names[-1]}" if names[1:] else names[0]


def details(argument):
    """Returns the help of an argument, its default and its possible values as sentences."""
    found = [as_sentence(argument.help)]
    if argument.default is not None:
        found.append(f"The default is {as_sentence(argument.default)}")
    if argument.choices:
        found.append(f"The possible values are {listed(argument.choices)}.")
    return " ".join(filter(None, found))
