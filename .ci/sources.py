"""What the sources of the libraries say: their public items, with the comment, the signature and
the clauses of each.

It reads files as `rt fmt` lays them out: an item begins at its indentation, and ends at a line with
the same indentation.
"""

import collections
import pathlib
import re

TOP = pathlib.Path(__file__).resolve().parent.parent
CRATES = TOP / "crates"
WORD = re.compile(r"[^\W\d][\w'-]*")


def crate_lines():
    """Each crate of crates.txt: its name, what kind it is, and the libraries that it stands on."""
    for line in (TOP / "crates.txt").read_text().splitlines():
        head, colon, deps = line.split("#")[0].partition(":")
        if colon:
            name, *kind = head.split()
            yield name, kind, deps.split()


def libraries():
    """The crates of crates.txt that have a library, but for those of tests and of the benchmark."""
    for name, _, _ in crate_lines():
        if not name.startswith(("test_", "bench_")) and (CRATES / name / "src" / "lib.rt").exists():
            yield name


def caller_libraries():
    """The libraries that others call: those that are neither for tests nor static libraries."""
    kinds = {name: kind for name, kind, _ in crate_lines()}
    return [name for name in libraries() if "staticlib" not in kinds[name]]


def exported(crate):
    """The names that a library hands out at its root, and its public modules."""
    text = (CRATES / crate / "src" / "lib.rt").read_text()
    names = set()
    for group in re.findall(r"^pub use \w+::(?:\{([^}]*)\}|(\w+));", text, re.M):
        names |= set(WORD.findall(group[0] or group[1]))
    return names, set(re.findall(r"^pub mod (\w+);", text, re.M))


class Item:
    """An item: its comment, its attributes, and its lines, of which the first is the head's."""

    def __init__(self, docs, attributes, lines, indent):
        self.docs, self.attributes, self.lines, self.indent = docs, attributes, lines, indent

    @property
    def head(self):
        """The lines before the clauses and the body, as one line."""
        if re.match(r"(pub )?use ", self.lines[0].strip()):
            return (
                re.sub(r",? ?}", "}", " ".join(line.strip() for line in self.lines))
                .replace("{ ", "{")
                .rstrip(";")
            )
        head = []
        for line in self.lines:
            text = line.strip()
            if (
                text.startswith(("requires", "ensures"))
                or text in ("{", "{}")
                or (head and text.startswith("ghost "))
            ):
                break
            head.append(text)
            if (
                text.endswith(("{", "{}", ";"))
                and line.startswith(self.indent)
                and not line.startswith(self.indent + " ")
            ):
                break
        head = " ".join(head).removesuffix("{}").removesuffix("{").rstrip(" ;")
        return (
            re.sub(r",? ([)>\]])", r"\1", re.sub(r"([(<\[]) ", r"\1", head))
            if "(" in head
            else head
        )

    @property
    def clauses(self):
        """The clauses, each as one line."""
        clauses = []
        for line in self.lines:
            text = line.strip()
            at_margin = (
                line.strip() != ""
                and line.startswith(self.indent)
                and not line.startswith(self.indent + " ")
            )
            if clauses and at_margin:
                break
            if re.match(r"(requires|ensures)\b", text):
                clauses.append(text)
            elif clauses and not text.startswith("//") and text:
                clauses[-1] += " " + text
            if (clauses and text.endswith(";")) or (at_margin and text.endswith(("{", "}", ";"))):
                break
        return [clause.rstrip(";") for clause in clauses]

    @property
    def inner(self):
        """The items in the braces."""
        opened = next(
            (
                at
                for at, line in enumerate(self.lines)
                if line.startswith(self.indent) and line.endswith("{")
            ),
            None,
        )
        return (
            [] if opened is None else list(parse(self.lines[opened + 1 : -1], self.indent + "    "))
        )

    @property
    def sentence(self):
        """The first sentence of the comment, without links; empty where there is none."""
        paragraph = []
        for line in self.docs:
            if not line.strip():
                break
            paragraph.append(line.strip())
        said = " ".join(paragraph)
        found = re.match(r"(.*?[.:])(?=\s+[A-Z`\[(]|\s*$)", said)
        said = found[1] if found else said
        said = re.sub(r"\[(`[^`]+`)\](\([^)]*\))?", r"\1", said)
        return re.sub(r":$", ".", re.sub(r"\[([^\]]+)\]\([^)]*\)", r"\1", said))

    @property
    def hidden(self):
        return any("doc(hidden)" in attribute for attribute in self.attributes)

    def named(self, pattern):
        found = re.match(pattern, self.head)
        return found and found[1]


def parse(lines, indent=""):
    """The items that begin at this indentation."""
    docs, attributes, item, is_open = [], [], [], False
    for line in lines:
        at_margin = (
            line.startswith(indent) and not line.startswith(indent + " ") and line.strip() != ""
        )
        text = line.strip()
        if not item:
            if not at_margin:
                continue
            if text.startswith("///"):
                docs.append(text.removeprefix("///").removeprefix(" "))
                continue
            if text.startswith("#["):
                attributes.append(text)
                continue
            if text.startswith(("//", "#!", "}", ")")):
                docs = docs if text.startswith("//") and not text.startswith("//!") else []
                continue
        item.append(line)
        is_open = is_open or (at_margin and text.endswith("{"))
        # a variant or a field ends with a comma, and anything else with its brace or its semicolon
        ended = at_margin and (
            text in ("}", "},", "{}")
            or text.endswith((";", "{}", ","))
            and not is_open
            and not text.startswith((")", "where"))
        )
        ended = (
            ended
            or (not is_open and text.endswith(";"))
            or (at_margin and not is_open and text.endswith("}"))
        )
        ended = ended or (at_margin and text in ("),", "];", ");", "};"))
        if ended and not (
            text.endswith(",")
            and re.match(r"(pub )?(const )?(fn|impl|trait|type|use)\b", item[0].strip())
        ):
            yield Item(docs, attributes, item, indent)
            docs, attributes, item, is_open = [], [], [], False


def module_sentence(path):
    """The first sentence of a file's own comment."""
    docs = [
        line.removeprefix("//!").removeprefix(" ")
        for line in path.read_text().splitlines()
        if line.startswith("//!")
    ]
    return Item(docs, [], [""], "").sentence


KINDS = r"pub (?:const |unsafe )*(?:fn|struct|enum|trait|const|type|static|union) (\w+)"


class Library:
    """A library: what its files define, and what of it callers reach, each by its path."""

    def __init__(self, crate):
        self.crate = crate
        self.source = CRATES / crate / "src"
        self.items = {
            path: list(parse(path.read_text().splitlines()))
            for path in sorted(self.source.rglob("*.rt"))
        }
        self.names, self.modules = exported(crate)

    def defined(self, name):
        """The item of this name, and the file that has it."""
        for path, items in self.items.items():
            for item in items:
                if item.named(KINDS) == name:
                    return item
        return None

    def reached(self):
        """
        The path of each item that callers reach and that is defined here, and of each that is
        another library's, with that library's.
        """
        yield from self.reached_from(self.source / "lib.rt", self.crate)

    def reached_from(self, path, prefix):
        for item in self.items[path]:
            used = re.match(
                r"pub use (?:crate::)?(\w+)((?:::\w+)*)(?:::\{(.*)\}|::(\w+))$", item.head
            )
            if used:
                for name in WORD.findall(used[3] or used[4] or ""):
                    yield f"{prefix}::{name}", self.defined(name), None if self.defined(
                        name
                    ) else used[1] + used[2]
            elif item.named(KINDS):
                yield f"{prefix}::{item.named(KINDS)}", item, None
            elif item.named(r"pub mod (\w+)") and not item.hidden:
                name = item.named(r"pub mod (\w+)")
                if item.lines[0].rstrip().endswith(";"):
                    yield from self.reached_from(
                        path.parent / f"{name}.rt"
                        if path.name == "lib.rt"
                        else path.with_suffix("") / f"{name}.rt",
                        f"{prefix}::{name}",
                    )
                else:
                    for inner in item.inner:
                        found = re.match(r"pub use (\w+(?:::\w+)*)::(\w+)$", inner.head)
                        if found:
                            yield f"{prefix}::{name}::{found[2]}", None, found[1]

    def file_of(self, item):
        """The file that has an item at its margin."""
        return next(path for path, items in self.items.items() if any(it is item for it in items))

    def macros(self):
        """The macros that callers write."""
        for items in self.items.values():
            for item in items:
                if (
                    any("macro_export" in attribute for attribute in item.attributes)
                    and not item.hidden
                ):
                    yield item.named(r"macro_rules! (\w+)"), item

    def impls(self, name):
        """The `impl` items whose subject is this type, each with the trait, or nothing."""
        for items in self.items.values():
            for item in items:
                if not item.head.startswith("impl"):
                    continue
                of, subject = subject_of(item.head)
                if subject == name:
                    yield of, item


def subject_of(head):
    """The trait of an `impl`, or nothing, and the name of the type."""
    rest = head.removeprefix("impl")
    if rest.startswith("<"):
        depth = 0
        for at, letter in enumerate(rest):
            depth += (letter == "<") - (letter == ">" and rest[at - 1] != "-")
            if depth == 0:
                rest = rest[at + 1 :]
                break
    rest = rest.split(" where")[0].strip()
    of, found, subject = rest.rpartition(" for ")
    names = WORD.findall(re.sub(r"'\w+", "", subject))
    return (of if found else None), (names[0] if names else "")


def members(item):
    """
    The variants, the public fields, and the functions, types and constants of a trait: the
    signature of each, and the item.
    """
    for inner in item.inner:
        head = inner.head.rstrip(",")
        if item.head.startswith("pub enum"):
            fields = ", ".join(field.head.rstrip(",") for field in inner.inner)
            yield head.split("(")[0], head + (f" {{ {fields} }}" if fields else ""), inner
        elif item.head.startswith("pub struct"):
            found = re.match(r"pub (?!ghost)(\w+): (.*)", head)
            if found:
                yield found[1], head.removeprefix("pub "), inner
        elif item.head.startswith("pub trait"):
            found = re.match(r"(?:final )?(?:fn|type|const) (\w+)", head)
            if found:
                yield found[1], head, inner


def methods(impl):
    """The public functions and constants of an `impl`: the name, the signature and the item."""
    for inner in impl.inner:
        found = inner.named(r"pub (?:const |unsafe )*(?:fn|const) (\w+)")
        if found:
            yield found, inner.head.removeprefix("pub "), inner


def traits(library, name, item):
    """The traits that a type has, by a derive or an `impl`."""
    derived = [
        word.strip()
        for text in item.attributes
        for word in re.findall(r"derive\((.*)\)", text)
        for word in word.split(",")
    ]
    has = derived + [
        re.sub(r"^(fmt|error)::", "", of)
        for of, _ in library.impls(name)
        if of and "Sealed" not in of
    ]
    return list(dict.fromkeys(has))


def ghosts(item):
    """The ghost items of a trait or an `impl`, each as one line, but for laws and imports."""
    for inner in item.inner:
        text = " ".join(line.strip() for line in inner.lines)
        if re.match(r"(pub )?ghost (?!use)", text):
            yield text.removeprefix("pub ").removesuffix(";").removesuffix(",")


def contract(signature, item):
    return [signature] + [f"  {clause}" for clause in item.clauses]


def clauses(library):
    """The clauses of a library's public items, as lines."""
    for path, item, of in library.reached():
        name = path.rsplit("::", 1)[1]
        path = path.removeprefix(f"{library.crate}::")
        if of:
            continue
        head = item.head.removeprefix("pub ")
        if head.startswith("fn"):
            yield from contract(head.replace(f"fn {name}", f"fn {path}", 1), item)
        elif head.startswith("trait"):
            yield head
            yield from (f"  {ghost}" for ghost in ghosts(item))
            for member, signature, inner in members(item):
                yield from (f"  {line}" for line in contract(signature, inner))
        elif head.startswith(("struct", "enum")):
            known = [ghost for ghost in ghosts(item)]
            if known:
                yield head
                yield from (f"  {ghost}" for ghost in known)
        for of_trait, impl in library.impls(name):
            for member, signature, inner in methods(impl) if of_trait is None else []:
                if signature.startswith("fn"):
                    signature = signature.replace(f"fn {member}", f"fn {path}::{member}", 1)
                    yield from contract(signature, inner)
            said = list(ghosts(impl))
            inner = [
                (one.head, one) for one in impl.inner if one.head.startswith("fn") and one.clauses
            ]
            if of_trait and (said or inner):
                yield impl.head
                yield from (f"  {ghost}" for ghost in said)
                for signature, one in inner:
                    yield from (f"  {line}" for line in contract(signature, one))


OWN_USE = re.compile(
    r"^\s*(?:ghost )?use Rattle\.(\w+)\.specs\.(\w+)(?:\.\{([^}]*)\}| as (\w+));?$", re.S | re.M
)
# The words that a file of definitions hands on.
HANDED_ON = re.compile(r"^pub use Rattle\.(\w+)\.specs\.(\w+)\.\{([^}]*)\}$", re.M)
CITED = re.compile(r"(?<![\w.])(?:[^\W\d]\w*\.)?[^\W\d][\w'-]*")


def defining(crate, file):
    """
    Yields what a file of definitions defines for others: the line, from 0, the word, and what the
    comment over it says.
    """
    path = CRATES / crate / "specs" / f"{file}.antt"
    if not path.exists():
        return
    seen, comment, family = set(), [], None
    for number, line in enumerate(path.read_text().splitlines()):
        text = line.strip()
        if re.match(r"infix[lr]? ", text):
            continue
        if text.startswith("--"):
            said = text.lstrip("-").strip()
            comment = [] if text.startswith("-- --") else comment + [said]
            continue
        found = re.match(r"(?:abbrev |unfoldable )pub ()([^\s:({]+)", text) or re.match(
            r"(?:pub )?(data |record )(?:pub )?([^\s:({]+)", text
        )
        found = found or (re.match(r"pub ()([^\s:({]+)", text) if line.startswith(" ") else None)
        case = family and re.match(r"([^\s:({]+) +:", text)
        if found and found[2] not in seen:
            seen.add(found[2])
            yield number, found[2], " ".join(comment)
            family = found[2] if found[1] == "data " else family if line.startswith("  ") else None
        elif case and line.startswith("  "):
            if case[1] not in seen:
                seen.add(case[1])
                yield number, case[1], " ".join(comment) or f"a case of `{family}`"
        elif not line.startswith(" "):
            family = None
        comment = []


def definitions(crate, file):
    """What a file of definitions defines for others, each with what the comment over it says."""
    return {word: said for _, word, said in defining(crate, file)}


def home_of(crate, file, word):
    """The crate, the file and the name of a word that a file defines, or hands on by `pub use`."""
    path = CRATES / crate / "specs" / f"{file}.antt"
    for other, home, group in HANDED_ON.findall(path.read_text()) if path.exists() else []:
        if word in map(str.strip, group.split(",")):
            return home_of(other, home, word)
    return crate, file, word


def uses_of(text):
    """The definitions that a file of sources or of definitions imports: each by its name there."""
    uses = {}
    for crate, file, group, alias in OWN_USE.findall(text):
        if file in ("declared", "contracts"):
            continue
        if alias:
            uses.update(
                {f"{alias}.{word}": (crate, file, word) for word in definitions(crate, file)}
            )
        for word in (it.strip() for it in group.split(",")):
            if word:
                named, _, given = (it.strip() for it in word.partition(" as "))
                uses[given or named] = home_of(crate, file, named)
    return uses


# ---- The toolchain's words in docs/DEFINITIONS.md

DEFINITIONS = TOP / "docs" / "DEFINITIONS.md"
STANDARD = "## The toolchain's library"
Row = collections.namedtuple("Row", "names shown prose")


def definition_rows():
    """The rows of the toolchain's table: the names of each, as they are shown, and what they mean."""
    _, _, text = DEFINITIONS.read_text().partition(f"\n{STANDARD}\n")
    for line in text.partition("\n## ")[0].splitlines():
        if line.startswith("| `"):
            shown, prose = [
                it.strip().replace("\\|", "|")
                for it in re.split(r"(?<!\\)\|", line[1:].rstrip()[:-1])
            ]
            names = tuple(it.split()[0] for it in re.findall(r"`([^`]+)`", shown))
            yield Row(names, shown, prose)
