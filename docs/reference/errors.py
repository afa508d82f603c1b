"""The page of all errors: those of the libraries, and the statuses of the C library.

What an error means is the comment over it. What to do is in `errors.json`: for the statuses of the
C library, for the variants of a type, and for all variants of a name. A variant without a line of
its own has that of the status that the C library returns for it. If there is no line, it is the
second paragraph of the comment, or that of the error that the variant contains.
"""

import html
import json
import pathlib
import re

from markup import Markup, code, escape, link, table
from sources import CRATES, TOP, WORD, traits

PAGE = "errors.html"
ADVICE = pathlib.Path(__file__).resolve().parent / "errors.json"
HEADER = TOP / "bindings" / "c" / "kombilad.h"
OF_C = CRATES / "kombilad_c" / "src"
plain = Markup(None)
# The keys of `errors.json` that are no types.
ANY, STATUSES = "any", "kombilad.h"
# The fields of an error that have its kind.
KIND_FIELDS = ("kind", "reason")

USE = re.compile(r"^(?:pub )?use (\w+)(?:::\w+)*::(?:\{([^}]*)\}|(\w+));", re.M)
FAILS_WITH = re.compile(r"-> .*Result<.*, (?:\w+::)*(\w+)(?:<[^()]*>)?>+(?: where .*)?$")
# A part of a sentence: a text before a number, a text, or another error.
TEXT = r'"((?:[^"\\]|\\.)*)"'
PART = re.compile(rf"write_number\(\s*f,\s*{TEXT}|{TEXT}|(\.fmt\(f\)|::sentence\()")
# The method that returns the name of a variant.
NAMES = re.compile(r"fn name\(&self\).*?\n    \}", re.S)
# The part of a text that a comment, a status or an empty line of an enum of C takes.
OF_ENUM = re.compile(r"/\*(.*?)\*/|^ *(KOMBILAD_\w+) = (\d+)|\n[ ]*\n", re.M | re.S)
# The errors that a comment excludes.
EXCEPT = re.compile(r"except (?:\[?`[^`]*`\]?(?:, | and )?)+")
CALL_OF_C = re.compile(r"/\* ([^*]*(?:\*[^/][^*]*)*)\*/\nuint32_t (kombilad_\w+)\(")


def sentences(name, text):
    """
    Yields the variants of an enum whose sentence a function writes, each with the sentence. It has
    `..` for a number, a name or another error.
    """
    arms = re.split(rf"(?=\b{name}::\w+[^=;]*?=>)", text)
    for arm in arms:
        head = re.match(rf"{name}::(\w+)(?:\([^()]*\)| \{{[^}}]*\}})? =>", arm)
        if not head:
            continue
        said = ""
        for number, literal, other in PART.findall(arm[head.end() :]):
            said += f"{number}.." if number else ".." if other else literal
        if said.strip("."):
            said = re.sub(r"\{[^}\\]*\}", "..", said)
            yield head[1], said.replace('\\"', '"')


class Kind:
    """An enum of errors, and the struct that has it as its kind, if there is one."""

    def __init__(self, entry, holder):
        self.entry, self.holder = entry, holder
        self.library, self.path = entry.library, entry.path
        self.name = entry.path.rpartition("::")[2]
        self.variants = {it.path.rpartition("::")[2]: it for it in entry.members}
        self.variants = {it: one for it, one in self.variants.items() if one.kind == "variant"}
        self.printed = {}
        sentence = self.name.replace("Error", "Sentence")
        self.prints_names = bool(list(self.library.impls(sentence)))
        for name in {sentence if self.prints_names else self.name, self.name_of(holder)}:
            for _, impl in self.library.impls(name):
                text = NAMES.sub("", "\n".join(impl.lines))
                self.printed.update(sentences(self.name, text))

    @staticmethod
    def name_of(holder):
        return holder.path.rpartition("::")[2] if holder else ""


class Status:
    """A status of the C library."""

    def __init__(self, name, number, group, comment):
        self.name, self.number, self.group, self.comment = name, number, group, comment
        self.sentence, self.calls, self.variants = "", [], []


def words_of(comment):
    return " ".join(it.strip().lstrip("*").strip() for it in comment.split("\n")).strip()


def header_statuses(text):
    """
    Yields the statuses of a header, with the comment over each and the one over its group, which
    ends with a full stop.
    """
    inside = re.search(r"^enum kombilad_status \{\n(.*?)^\};", text, re.M | re.S)[1]
    group, own = "", ""
    for comment, name, number in OF_ENUM.findall(inside):
        said = words_of(comment)
        if said.endswith("."):
            group = said
        elif said:
            own = said
        elif name:
            yield Status(name, int(number), group, own)
            own = ""
        else:
            group, own = "", ""


def expanded(listed, names):
    """Returns the statuses that a line of the header names, and those words that name none."""
    found, wrong, prefix, leaves_out = [], [], "KOMBILAD_", False
    for word in re.findall(r"[A-Z][A-Z0-9_]*\*?|except", listed):
        if word == "except":
            leaves_out = True
            continue
        full = next((it for it in (word, f"KOMBILAD_{word}", prefix + word) if fits(it, names)), "")
        taken = fits(full, names)
        if not taken:
            wrong.append(word)
        if re.match(r"KOMBILAD_[A-Z]+_", word):
            prefix = re.match(r"KOMBILAD_[A-Z]+_", word)[0]
        found = [it for it in found if it not in taken] if leaves_out else found + taken
        leaves_out = False
    return found, wrong


def fits(word, names):
    """Returns the names that a word names, which may end with a star."""
    if word.endswith("*"):
        return [it for it in names if it.startswith(word[:-1])]
    return [word] if word in names else []


class Errors:
    """The page of errors, of a `Reference` that knows all items."""

    def __init__(self, reference):
        self.reference = reference
        self.advice = json.loads(ADVICE.read_text(encoding="utf-8"))
        self.kinds, self.by_name, self.calls = {}, {}, {}
        for entries in reference.entries.values():
            for entry in entries:
                self.take(entry)
        self.variants = {it for kind in self.kinds.values() for it in kind.variants.values()}
        self.statuses = {}
        self.read_header()
        self.read_numbers()
        for kind in self.kinds.values():
            self.calls[kind.path] = []
        self.find_calls()
        self.check()

    def wrong(self, text):
        self.reference.errors.append(text)

    # What there is

    def take(self, entry):
        """Takes in an entry that is an error."""
        name = entry.path.rpartition("::")[2]
        if entry.kind not in ("enum", "struct") or "Error" not in traits(
            entry.library, name, entry.item
        ):
            return
        kind = entry
        if entry.kind == "struct":
            field = next((it for it in entry.members if it.anchor.endswith(KIND_FIELDS)), None)
            of = field and field.signature.partition(": ")[2]
            kind = self.reference.by_path.get(f"{entry.library.crate}::{of}")
        if kind is None or kind.kind != "enum":
            self.wrong(f"{entry.path} is an error without variants that errors.py finds")
            return
        made = Kind(kind, entry if kind is not entry else None)
        self.kinds[kind.path] = made
        for it in {name, made.name}:
            self.by_name.setdefault(it, []).append(made)

    def named(self, file, crate, name):
        """Returns the error of this name in a file of a library, or None."""
        found = self.by_name.get(name, [])
        homes = [crate]
        for of, group, one in USE.findall(file.read_text(encoding="utf-8")):
            if name in WORD.findall(group or one) and of not in ("crate", "super", "self"):
                homes = [of, *self.reference.below.get(of, [])]
        places = [homes.index(it.library.crate) for it in found if it.library.crate in homes]
        near = [it for it in found if it.library.crate in homes]
        return near[places.index(min(places))] if near else found[0] if len(found) == 1 else None

    def read_header(self):
        """Reads the statuses of the C library, their sentences, and the calls that return them."""
        text = HEADER.read_text(encoding="utf-8")
        for status in header_statuses(text):
            self.statuses[status.name] = status
            if not status.comment and status.number:
                self.wrong(f"no comment over {status.name}, in {HEADER.relative_to(TOP)}")
        for comment, call in CALL_OF_C.findall(text):
            listed = words_of(comment).partition("Statuses: ")[2]
            found, unknown = expanded(listed, self.statuses)
            for word in unknown:
                self.wrong(f"the comment over {call} names the status {word}, which isn't there")
            for name in found:
                self.statuses[name].calls.append(call)
        text = (OF_C / "status_text.rt").read_text(encoding="utf-8")
        groups = {of: int(it) for it, of in re.findall(r"^ +(\d+) => (\w+)\(number\)", text, re.M)}
        other, said = re.search(r'OTHER: &str = "(.*)"', text)[1], {}
        for of, body in re.findall(r"^fn (\w+)\(number: u32\)(.*?)^}", text, re.M | re.S):
            for number, sentence in re.findall(r'^ +(\d+) => "(.*)",', body, re.M):
                said[16 * groups[of] + int(number)] = sentence
        for status in self.statuses.values():
            status.sentence = said.get(status.number, other)

    def read_numbers(self):
        """Finds the variants that have a status."""
        path = OF_C / "status.rt"
        text = path.read_text(encoding="utf-8")
        numbers = dict(re.findall(r"^(?:pub\(crate\) )?const (\w+): u32 = (\d+);", text, re.M))
        by_number = {it.number: it for it in self.statuses.values()}
        for arm, value in re.findall(r"^ +(\w+::\w+.*) => (\w+),$", text, re.M):
            status = by_number.get(int(numbers.get(value, value if value.isdigit() else -1)))
            for name, variant in re.findall(r"(\w+)::(\w+)", arm):
                kind = self.named(path, "kombilad_c", name)
                # A reader in memory doesn't fail, so its error has the status of another.
                is_other = value == "OTHER" or value == "MEMORY" and variant != "Memory"
                is_new = kind and not is_other and status and (kind, variant) not in status.variants
                # An arm with 0 is an offset, and not the status of success.
                if is_new and status.number:
                    status.variants.append((kind, variant))

    def find_calls(self):
        """Finds the public calls that fail with an error of a type."""
        for library in self.reference.libraries:
            for entry in self.reference.entries[library.crate]:
                for it in (entry, *entry.members):
                    self.take_call(it.path, it.href, it.signature, it.item, library, it.file)
                name = entry.path.rpartition("::")[2]
                for of, impl in library.impls(name):
                    for inner in impl.inner if of and "::Sealed" not in of else []:
                        said = re.match(r"fn (\w+)", inner.head)
                        if said:
                            path = f"{entry.path}::{said[1]}"
                            file = library.file_of(impl)
                            self.take_call(path, entry.href, inner.head, inner, library, file)

    def take_call(self, path, href, signature, item, library, file):
        found = FAILS_WITH.search(signature) if "fn " in signature else None
        kind = found and self.named(file, library.crate, found[1])
        if kind:
            self.calls[kind.path].append((path, href, item))

    def check(self):
        """Finds what `errors.json` has too much or too little."""
        for of, lines in self.advice.items():
            if of == ANY:
                known = {it for kind in self.kinds.values() for it in kind.variants}
            elif of == STATUSES:
                known = self.statuses
            else:
                known = self.kinds[of].variants if of in self.kinds else None
            if known is None:
                self.wrong(f"errors.json has {of}, which is no error of a library")
                continue
            for name in lines:
                if name not in known:
                    self.wrong(f"errors.json has {name} of {of}, which isn't there")
        for status in self.statuses.values():
            if status.number and status.name not in self.advice[STATUSES]:
                self.wrong(f"errors.json doesn't have {status.name}: what can a caller do?")
        for kind in self.kinds.values():
            for variant, entry in kind.variants.items():
                if not (self.parts(kind, variant)[1] or self.inner(kind, variant)):
                    self.wrong(f"errors.json doesn't have {entry.path}: what can a caller do?")

    # The page

    def what_to_do(self, kind, variant):
        """Returns the advice for a variant: its own, that of its status, or that of its name."""
        own = self.advice.get(kind.path, {}).get(variant)
        of_status = (self.advice[STATUSES].get(it.name) for it in self.in_c(kind, variant))
        return own or next(of_status, None) or self.advice[ANY].get(variant, "")

    def parts(self, kind, variant):
        """Returns what a variant means, and what to do."""
        said, doing = "\n".join(kind.variants[variant].item.docs), self.what_to_do(kind, variant)
        return (said, doing) if doing else said.partition("\n\n")[::2]

    def in_c(self, kind, variant):
        """Returns the statuses of a variant."""
        return [it for it in self.statuses.values() if (kind, variant) in it.variants]

    def to(self, kind, variant):
        return f"{PAGE}#{kind.path}::{variant}"

    def inner(self, kind, variant):
        """Returns the error that a variant contains, or None."""
        found = re.search(r"\((\w+)", kind.variants[variant].signature)
        return found and self.named(kind.entry.file, kind.library.crate, found[1])

    def naming(self, kind, variant):
        """Yields the calls whose `# Errors` name a variant, unless they do so as never returned."""
        for path, href, item in self.calls[kind.path]:
            said = "\n".join(item.docs).partition("# Errors")[2].partition("\n# ")[0]
            said = EXCEPT.sub("", said)
            for sentence in re.split(r"(?<=\.)\s|\n- ", said):
                spans = " ".join(re.findall(r"`([^`]*)`", sentence))
                if variant in WORD.findall(spans) and "never" not in sentence:
                    yield path, href
                    break

    def row(self, kind, variant):
        """Returns the cells of a variant."""
        entry = kind.variants[variant]
        where = f"{entry.path}, in {entry.file.relative_to(TOP)},"
        markup = self.reference.markup(where, kind.library.crate, entry.path)
        meaning, doing = self.parts(kind, variant)
        meaning, doing = markup.page(meaning), markup.line(doing)
        naming = list(dict.fromkeys(self.naming(kind, variant)))
        if naming and variant != "Memory":
            links = ", ".join(link(href, code(path)) for path, href in naming)
            meaning += f'<p class="faint">Named in the errors of {links}.</p>'
        in_c = self.in_c(kind, variant)
        if in_c:
            links = ", ".join(link(f"#{it.name}", code(it.name)) for it in in_c)
            meaning += f'<p class="faint">In C: {links}.</p>'
        inner = self.inner(kind, variant)
        if inner:
            doing = f"{doing} See {link(f'#{inner.path}', code(inner.name))}.".strip()
        name = link(entry.href, code(variant))
        mark = html.escape(f"{kind.path}::{variant}")
        return f'<span id="{mark}"></span>{name}', meaning, doing, self.printed(kind, variant)

    def printed(self, kind, variant):
        return escape(kind.printed.get(variant, ""))

    def section(self, kind):
        """Yields the errors of a type."""
        name, entry = kind.path, kind.holder or kind.entry
        markup = self.reference.markup(f"the errors of {name}", kind.library.crate, name)
        yield f'<section id="{name}"><h2>{link(f"#{name}", code(name))}</h2>'
        of = f" It is the kind of {link(entry.href, code(entry.anchor))}."
        yield f"<p>{markup.line(kind.entry.item.sentence)}{of if kind.holder else ''}</p>"
        calls = dict.fromkeys((path, href) for path, href, _ in self.calls[name])
        if calls:
            links = ", ".join(link(href, code(path)) for path, href in calls)
            count = f"{len(calls)} call{'s' * (len(calls) > 1)} with this error"
            yield f"<details><summary>{count}</summary><p>{links}.</p></details>"
        as_sentence = "printed by {:#}" if kind.prints_names else "printed by {}"
        heads = ["name", "meaning", "what to do", as_sentence]
        yield table(heads, (self.row(kind, variant) for variant in kind.variants))
        yield "</section>"

    def statuses_of_c(self):
        """Yields the statuses of the C library, group by group."""
        yield '<section id="kombilad.h"><h2><a href="#kombilad.h"><code>kombilad.h</code></a></h2>'
        yield "<p>The statuses of the C library. In Python <code>name</code> and in JavaScript"
        yield "<code>code</code> is the name without <code>KOMBILAD_</code>.</p>"
        groups = {}
        for status in self.statuses.values():
            if status.number:
                groups.setdefault(status.group, []).append(status)
        for group, statuses in groups.items():
            yield f"<h3>{plain.line(group or 'Statuses of several kinds of input.')}</h3>"
            shared = statuses[0].calls
            if all(it.calls == shared for it in statuses):
                yield f"<p>Returned by {', '.join(map(code, shared))}.</p>"
            else:
                shared = None
            rows = []
            for it in statuses:
                said = it.comment[:1].upper() + it.comment[1:]
                meaning = f"<p>{plain.line(said)}.</p>"
                if it.calls and shared is None:
                    calls = ", ".join(map(code, it.calls))
                    meaning += f'<p class="faint">Returned by {calls}.</p>'
                if it.variants:
                    links = ", ".join(
                        link(self.to(kind, of), code(f"{kind.name}::{of}"))
                        for kind, of in it.variants
                    )
                    meaning += f'<p class="faint">In Rust: {links}.</p>'
                name = link(f"#{it.name}", code(it.name))
                mark = f'<span id="{it.name}"></span>{name} <small>{it.number}</small>'
                doing = plain.line(self.advice[STATUSES].get(it.name, ""))
                rows.append((mark, meaning, doing, escape(it.sentence)))
            yield table(["name", "meaning", "what to do", "kombilad_status_text"], rows)
        yield "</section>"

    def names(self):
        """Returns the errors by name: where each is on the page, with the name of its type."""
        found = {}
        for kind in self.kinds.values():
            for variant in kind.variants:
                of = kind.name if len(self.by_name[kind.name]) == 1 else kind.path
                found.setdefault(variant, []).append((of, f"{kind.path}::{variant}"))
        return dict(sorted(found.items(), key=lambda it: it[0].lower()))

    def content(self):
        """Yields the page."""
        yield "<h1>Errors</h1>"
        yield "<p>All errors of the libraries and all statuses of the C library: the meaning, what to do,"
        yield "and the sentence that is printed, with <code>..</code> for a number, a name or another"
        yield "error. A few sentences that the code puts together are left out. Type <kbd>/</kbd> to"
        yield "search for a name or a sentence.</p>"
        yield '<section id="names"><h2><a href="#names">Names</a></h2><ul class="names">'
        for name, places in self.names().items():
            links = ", ".join(link(f"#{to}", code(of)) for of, to in places)
            yield f'<li id="{name}"><b>{name}</b> {links}</li>'
        for status in self.statuses.values():
            if status.number:
                yield f"<li>{link(f'#{status.name}', code(status.name))}</li>"
        yield "</ul></section>"
        for kind in self.kinds.values():
            yield from self.section(kind)
        yield from self.statuses_of_c()

    def contents(self):
        """Returns the list beside the page."""
        places = ["names", *self.kinds, "kombilad.h"]
        return [link(f"{PAGE}#{it}", code(it)) for it in places]

    def index(self):
        """Yields what the search finds."""
        for kind in self.kinds.values():
            for variant, entry in kind.variants.items():
                said = plain.plain(entry.item.sentence)
                printed = kind.printed.get(variant, "")
                said = f"{said} Prints: {printed}." if printed else said
                yield entry.path, "error", self.to(kind, variant), said
        for it in self.statuses.values():
            if it.number:
                yield it.name, "status", f"{PAGE}#{it.name}", f"{it.number}: {it.sentence}."
