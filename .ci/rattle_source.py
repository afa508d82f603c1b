"""What a file of Rattle has: its functions, each with its name as the prover says it, its clauses
and its body.

It reads what `rt fmt` lays out, and knows of the language what it needs: comments, strings, the
braces of clauses and of ghost items, and the blocks of `impl`, `trait` and `mod`.
"""

import dataclasses
import pathlib
import re

IDENT = re.compile(r"[^\W\d]\w*")
RAW_STRING = re.compile(r'b?r(#*)"')
CHARACTER = re.compile(r"'(?:\\(?:x[0-9a-fA-F]{2}|u\{[0-9a-fA-F]+\}|.)|[^\\'])'")
CLAUSES = ("ensures", "requires", "ghost")


@dataclasses.dataclass(frozen=True)
class Function:
    """A function with a body: places in the text of its file."""

    # As the prover says it, below the crate: `varint::read_varint`, or where the rule for `impl`s
    # is not known to hold, as near as can be.
    path: str
    # Where it begins, its body's brace, and the place behind the body's last brace.
    start: int
    body: int
    end: int
    # A word of a type, or part of a cycle of calls: it is left as it is.
    is_fixed: bool

    @property
    def name(self):
        return self.path.rpartition("::")[2]


def past(text, at):
    """The place behind the comment, string or character that begins here, or None."""
    if text.startswith("//", at):
        end = text.find("\n", at)
        return len(text) if end < 0 else end
    if text.startswith("/*", at):
        return text.index("*/", at) + 2
    if raw := RAW_STRING.match(text, at):
        return text.index('"' + raw[1], raw.end()) + 1 + len(raw[1])
    if text[at] == '"':
        at += 1
        while text[at] != '"':
            at += 2 if text[at] == "\\" else 1
        return at + 1
    if text[at] == "'" and (character := CHARACTER.match(text, at)):
        return character.end()
    return None


def past_block(text, at, is_code=True):
    """
    The place behind the brace that closes the one here. In a clause (no code) a quote is part of a
    name.
    """
    depth = 0
    while at < len(text):
        if is_code and (end := past(text, at)) is not None:
            at = end
            continue
        depth += {"{": 1, "}": -1}.get(text[at], 0)
        at += 1
        if depth == 0:
            return at
    raise ValueError("a brace is not closed")


def past_head(text, at):
    """
    The place of the brace or semicolon that ends the head of an item: brackets and clauses are
    passed.
    """
    depth = 0
    while True:
        if (end := past(text, at)) is not None:
            at = end
        elif text[at] in "([":
            depth, at = depth + 1, at + 1
        elif text[at] in ")]":
            depth, at = depth - 1, at + 1
        elif depth == 0 and text[at] in "{;":
            return at
        elif word := IDENT.match(text, at):
            at = word.end()
            if word[0] in CLAUSES and depth == 0:
                at = past_block(text, text.index("{", at), is_code=False)
        else:
            at += 1


def past_ghost(text, at):
    """The place behind a ghost item."""
    while text[at] not in ";{":
        at += 1
    if text[at] == ";":
        return at + 1
    at = past_block(text, at, is_code=False)
    # `ghost use M.{a, b};`
    return at + 1 if text.startswith(";", at) else at


def parts(text):
    """The parts of a list, at its commas outside brackets."""
    found, depth, last = [], 0, 0
    for at, letter in enumerate(text):
        if letter in "<([":
            depth += 1
        elif letter in ")]" or letter == ">" and text[at - 1 : at] != "-":
            depth -= 1
        elif letter == "," and depth == 0:
            found.append(text[last:at])
            last = at + 1
    found.append(text[last:])
    return [it.strip() for it in found if it.strip()]


def past_generics(text):
    """The parameters of a text that begins with `<`, and what stands behind them."""
    depth = 0
    for at, letter in enumerate(text):
        if letter == "<":
            depth += 1
        elif letter == ">" and text[at - 1] != "-":
            depth -= 1
            if depth == 0:
                return text[1:at], text[at + 1 :].strip()
    raise ValueError("a bracket is not closed")


def word_of(kind, params, is_whole=True):
    """The word by which the prover's name of an `impl` has this type: `CidGeneric64`, `RefSliceU8`, `IoError` for `io::Error`, `Any` for a
    type parameter alone."""
    kind = kind.strip()
    if kind == "()":
        return "Unit"
    if kind.startswith("&"):
        rest = re.sub(r"^'\w+\s*", "", kind[1:].strip())
        if rest.startswith("mut "):
            return "RefMut" + word_of(rest[4:], params, False)
        return "Ref" + word_of(rest, params, False)
    if kind.startswith("["):
        item, semicolon, size = kind[1:-1].partition(";")
        return (
            ("Array" if semicolon else "Slice")
            + word_of(item, params, False)
            + (word_of(size, params, False) if semicolon else "")
        )
    if kind.startswith("("):
        return f"Tuple{len(parts(kind[1:-1]))}" + "".join(
            word_of(it, params, False) for it in parts(kind[1:-1])
        )
    head, bracket, _ = kind.partition("<")
    args = (
        [it for it in parts(past_generics(kind[len(head) :])[0]) if not it.startswith("'")]
        if bracket
        else []
    )
    # Of a path the last two names.
    names = head.strip().split("::")[-2:]
    if names[-1] in params:
        return "Any" if is_whole else ""
    return "".join(it[:1].upper() + it[1:] for it in names) + "".join(
        word_of(it, params, False) for it in args
    )


@dataclasses.dataclass(frozen=True)
class Impl:
    params: frozenset
    kind: str
    of_trait: str


def impl_of(head):
    """What an `impl` is of, by the text between that word and its brace."""
    head = re.sub(r"//[^\n]*", "", head)
    head, params = re.split(r"\bwhere\b", " ".join(head.split()))[0].strip(), []
    if head.startswith("<"):
        inside, head = past_generics(head)
        params = [
            it.removeprefix("const ").partition(":")[0].partition("=")[0].strip()
            for it in parts(inside)
        ]
    depth, at = 0, 0
    for found in re.finditer(r"[<>]|\bfor\b", head):
        depth += {"<": 1, ">": -1}.get(found[0], 0)
        if found[0] == "for" and depth == 0:
            at = found.start()
    of_trait, kind = (head[:at], head[at + 3 :]) if at else ("", head)
    return Impl(frozenset(params), kind.strip(), of_trait.strip().removeprefix("unsafe "))


def module_of(path):
    """The module of a file of src/."""
    words = list(pathlib.PurePosixPath(path).with_suffix("").parts[1:])
    return (
        words[:-1]
        if words and words[-1] in ("mod", "lib", "main") and (len(words) == 1 or words[-1] == "mod")
        else words
    )


class Source:
    """The files of a crate's src/, by their paths in the crate."""

    def __init__(self, folder):
        self.texts = {}
        for file in sorted((pathlib.Path(folder) / "src").rglob("*.rt")):
            self.texts[file.relative_to(folder).as_posix()] = file.read_text(encoding="utf-8")
        self.types = {}
        for path, text in self.texts.items():
            for item in re.finditer(
                r"^\s*(?:pub(?:\([^)]*\))? )?(?:struct|enum|union) (\w+)", text, re.M
            ):
                self.types.setdefault(item[1], []).append(module_of(path))
        self.functions = {
            path: list(self.functions_of(path, text)) for path, text in self.texts.items()
        }

    def functions_of(self, path, text):
        at, around = 0, []
        module = module_of(path)
        while at < len(text):
            if (end := past(text, at)) is not None:
                at = end
                continue
            around = [it for it in around if it[0] > at]
            word = IDENT.match(text, at)
            if not word:
                at += 1
                continue
            at = word.end()
            if word[0] == "macro_rules":
                at = past_block(text, text.index("{", at))
            elif word[0] == "ghost":
                at = past_ghost(text, at)
            elif word[0] in ("impl", "trait", "mod"):
                brace = past_head(text, at)
                if text[brace] == "{":
                    around.append((past_block(text, brace), word[0], text[at:brace]))
                at = brace + 1
            elif word[0] == "fn" and (name := IDENT.match(text, at + 1)):
                body = past_head(text, name.end())
                at = body + 1
                if text[body] == "{":
                    at = past_block(text, body)
                    before = text[: word.start()]
                    before = before[
                        max(before.rfind("}\n"), before.rfind(";\n"), before.rfind("{\n")) + 1 :
                    ]
                    is_fixed = (
                        re.search(r"#\[cycle\(|#\[test\]|\bconst\s+(?:unsafe\s+)?$", before)
                        is not None
                    )
                    path_of = self.path_of(module, around, name[0])
                    yield Function(path_of, word.start(), body, at, is_fixed)

    def path_of(self, module, around, name):
        words = list(module)
        for _, what, head in around:
            if what == "mod":
                words.append(head.strip())
            elif what == "trait":
                words.append(IDENT.match(head.strip())[0])
            else:
                made = impl_of(head)
                if made.of_trait and made.of_trait != "Drop":
                    # Of the trait's own path the last name.
                    of_trait = re.sub(r"^(?:\w+::)+", "", made.of_trait)
                    words.append(word_of(made.kind, made.params) + word_of(of_trait, made.params))
                else:
                    kind = word_of(re.sub(r"<.*", "", made.kind).rpartition("::")[2], made.params)
                    words = [*self.home_of(kind, words), kind]
        return "::".join([*words, name])

    def home_of(self, kind, module):
        """Returns the module of a type that a module names: its own, if two types have one name."""
        homes = self.types.get(kind, [module])
        return module if module in homes else homes[-1]
