"""Makes the reference of the libraries as pages of HTML, with a search.

usage: ./doc [FOLDER]

The pages go to the folder `out/doc` of the repository, or to FOLDER, whose pages of the same names
are replaced. They can be read from there without a server. A library has two pages: its public
items, each with its comment, its signature, its clauses and the definitions that these use; and the
definitions, file by file, each with its comment. The toolchain's definitions, which have no file
here, have a page as well, made of the table of `docs/DEFINITIONS.md`. Another page has all errors,
with what to do (`errors.py`).

It fails if a public item or a status of the C library has no comment, if `errors.json` lacks a
status or names an error that isn't there, and if a link leads nowhere: a link from page to page, or
one in a comment to an item, as [`Cid`]. The status is then 1, after a line for each, and otherwise
0.
"""

import functools
import html
import json
import pathlib
import re
import shutil
import string
import sys

sys.dont_write_bytecode = True
HERE = pathlib.Path(__file__).resolve().parent
sys.path.insert(0, str(HERE.parent.parent / ".ci"))
from built import NotBuilt, kit  # noqa: E402
from errors import PAGE as ERRORS, Errors  # noqa: E402
from markup import Markup, code, escape, link, table  # noqa: E402
from sources import (  # noqa: E402
    CITED,
    CRATES,
    TOP,
    Item,
    Library,
    caller_libraries,
    crate_lines,
    definitions,
    defining,
    definition_rows,
    ghosts,
    members,
    methods,
    traits,
    uses_of,
)

ASSETS = ("doc.css", "search.js")
STANDARD = "std"
KIND = re.compile(r"(?:final )?(?:(?:const |unsafe )*(?=fn\b))?(\w+)")
CLAUSE = re.compile(r"(requires|ensures|ghost)\s*(\w*)\s*[:=]?\s*(.*)", re.S)
# What a file of sources defines: items, and variants and fields, each at the beginning of its line.
DEFINES = re.compile(
    r"^ *(?:pub(?:\(crate\))? )?(?:(?:const |unsafe |final )*"
    r"(?:fn|struct|enum|trait|type|const|static|mod|union)|macro_rules!|ghost)? ?(\w+)",
    re.M,
)
PRIMITIVES = set(
    "u8 u16 u32 u64 u128 usize i8 i16 i32 i64 i128 isize f32 f64 bool char str".split()
)
# A value that is longer than this is no part of a signature that is shown, in characters.
LONGEST_VALUE = 120
# Makes HTML of what links to no item.
plain = Markup(None)


def kind_of(head):
    """Returns what an item is, by the first word of its head."""
    found = KIND.match(head)
    return {"fn": "function", "const": "constant"}.get(found[1], found[1])


def signature_of(head):
    """Returns a head without a long value."""
    before, equals, value = head.partition(" = ")
    return f"{before} = .." if equals and len(value) > LONGEST_VALUE else head


class Entry:
    """A public item with its page: a type, a function, a trait, or a member of one."""

    def __init__(self, library, file, path, signature, item, kind):
        self.library, self.file, self.path = library, file, path
        self.signature, self.item, self.kind = signature, item, kind
        self.anchor = path.partition("::")[2]
        self.href = f"{library.crate}.html#{self.anchor}"
        self.members = []


class Reference:
    """All pages, with what they link to."""

    def __init__(self):
        self.libraries = [Library(crate) for crate in caller_libraries()]
        self.below = {name: below for name, _, below in crate_lines()}
        self.entries, self.elsewhere, self.by_path = {}, {}, {}
        self.errors, self.pages = [], {}
        self.template = string.Template((HERE / "page.html").read_text(encoding="utf-8"))
        # The rows of the toolchain's definitions, by the name.
        self.toolchain = {name: row for row in definition_rows() for name in row.names}
        self.uses = {}
        for library in self.libraries:
            self.gather(library)
        self.others = None
        self.errors_page = Errors(self)

    # What there is

    def gather(self, library):
        """Takes in a library's public items, and those of others that it has under its paths."""
        crate = library.crate
        self.entries[crate], self.elsewhere[crate] = [], []
        for path, item, of in library.reached():
            if of:
                self.elsewhere[crate].append((path, of))
                continue
            name = path.rsplit("::", 1)[1]
            head = item.head.removeprefix("pub ")
            file = library.file_of(item)
            entry = self.add(library, file, path, signature_of(head), item, kind_of(head))
            own = [
                (file, {"enum": "variant", "struct": "field"}.get(entry.kind), *member)
                for member in members(item)
            ]
            own += [
                (library.file_of(impl), None, *member)
                for of, impl in library.impls(name)
                if of is None
                for member in methods(impl)
            ]
            for file, kind, member, signature, inner in own:
                kind = kind or {"function": "method"}.get(kind_of(signature), kind_of(signature))
                inside = self.add(
                    library, file, f"{path}::{member}", signature_of(signature), inner, kind
                )
                entry.members.append(inside)
            self.entries[crate].append(entry)
        for name, item in library.macros():
            file = library.file_of(item)
            entry = self.add(library, file, f"{crate}::{name}", f"{name}!", item, "macro")
            self.entries[crate].append(entry)

    def add(self, library, file, path, signature, item, kind):
        """Returns the entry of an item, which can be found by its path from then on."""
        entry = Entry(library, file, path, signature, item, kind)
        self.by_path.setdefault(path, entry)
        if not item.sentence:
            self.errors.append(f"no comment over {path}, in {entry.file.relative_to(TOP)}")
        return entry

    def word(self, crate, file, word):
        """
        Returns where a definition stands; of a proof, which a clause may cite, its file; and None
        for what has no page.
        """
        if is_toolchain(crate):
            return f"{STANDARD}.html#{word}" if word in self.toolchain else None
        if not any(path.stem == file for path in specs(crate)):
            return None
        page = f"{crate}.definitions.html#{file}"
        return f"{page}.{word}" if word in self.definitions_of(crate, file) else page

    @functools.cache
    def definitions_of(self, crate, file):
        return definitions(crate, file)

    def uses_in(self, path):
        """Returns the definitions that a file of sources imports: (crate, file, word) by name."""
        if path not in self.uses:
            self.uses[path] = uses_of(path.read_text(encoding="utf-8"))
        return self.uses[path]

    # Links in comments

    def resolve(self, entry_path, crate, text):
        """Returns where the name of an item in a comment leads: a link, "" for none, or None."""
        name = re.sub(r"<.*", "", text.removesuffix("()").removesuffix("!"))
        if not re.fullmatch(r"\w+(::\w+)*", name):
            return ""
        if name.startswith("Self::"):
            parts = entry_path.split("::")
            for count in (len(parts), len(parts) - 1):
                found = self.by_path.get("::".join([*parts[:count], name[len("Self::") :]]))
                if found:
                    return found.href
            return None
        name = name.removeprefix("crate::").removeprefix("self::").removeprefix("super::")
        near = [crate, *self.below.get(crate, []), *self.entries]
        for of in near:
            for path in (name, f"{of}::{name}"):
                if path in self.by_path:
                    return self.by_path[path].href
        for of in near:
            for path, entry in self.by_path.items():
                if path.startswith(f"{of}::") and path.endswith(f"::{name}"):
                    return entry.href
        if name in self.entries:
            return f"{name}.html"
        return "" if self.is_known(name.split("::")) else None

    def is_known(self, parts):
        """Returns whether the toolchain's libraries or files of these ones define these names."""
        if self.others is None:
            self.others = set()
            for folder in [*(kit() / "rattle").iterdir(), *CRATES.iterdir()]:
                self.others.add(folder.name)
                for path in folder.glob("src/**/*.rt"):
                    self.others |= set(DEFINES.findall(path.read_text(encoding="utf-8")))
        return all(part in self.others or part in PRIMITIVES for part in parts)

    def markup(self, where, crate, path):
        """Returns what makes HTML of a comment, which stands over the item of this path."""

        def place(text):
            found = self.resolve(path, crate, text)
            if found is None:
                self.errors.append(f"{where} links to `{text}`, which no library has")
            return found

        return Markup(place)

    # Contracts

    def linked(self, text, uses, used=None):
        """Returns code whose words lead to their definitions, which are put into `used`."""
        made, at = [], 0
        for found in CITED.finditer(text):
            name, end = found[0], found.end()
            if name not in uses:
                name = name.partition(".")[0]
                end = found.start() + len(name)
            target = uses.get(name) and self.word(*uses[name])
            if not target:
                continue
            if used is not None:
                used[name] = uses[name]
            made.append(escape(text[at : found.start()]))
            made.append(link(target, escape(text[found.start() : end])))
            at = end
        return "".join(made) + escape(text[at:])

    def contract(self, clauses, file):
        """Yields the clauses of an item, and then the definitions that they use."""
        uses, used = self.uses_in(file), {}
        for clause in clauses:
            kind, name, body = CLAUSE.match(clause).groups()
            body = re.sub(r"^\{ (.*) \}$", r"\1", body, flags=re.S)
            said = f"{kind} <b>{name}</b>" if name else kind
            yield f'<div class="clause">{said}<pre>{self.linked(body, uses, used)}</pre></div>'
        if used:
            yield f"<details><summary>{len(used)} definition{'s' * (len(used) > 1)}</summary><dl>"
            for name, where in sorted(used.items()):
                yield f"<dt>{link(self.word(*where), code(name))}</dt><dd>{self.said(*where)}</dd>"
            yield "</dl></details>"

    def said(self, crate, file, word):
        """Returns the comment over a definition, or what the table has of one of the toolchain's."""
        if is_toolchain(crate):
            return plain.line(self.toolchain[word].prose)
        return plain.line(self.definitions_of(crate, file).get(word, ""))

    # The page of a library's items

    def item(self, entry, level):
        """Yields an item: its name, signature, comment, contract and members."""
        where = f"{entry.path}, in {entry.file.relative_to(TOP)},"
        name = entry.anchor if level == 2 else entry.path.rpartition("::")[2]
        heading = f"{link(f'#{entry.anchor}', code(name))} <small>{entry.kind}</small>"
        yield f'<section id="{html.escape(entry.anchor)}"{" class=member" * (level > 2)}>'
        yield f"<h{level}>{heading}</h{level}>"
        if entry.signature != name:
            yield f"<pre>{escape(entry.signature)}</pre>"
        markup = self.markup(where, entry.library.crate, entry.path)
        yield markup.page("\n".join(entry.item.docs))
        yield from self.contract([*entry.item.clauses, *ghosts(entry.item)], entry.file)
        for member in entry.members:
            yield from self.item(member, level + 1)
        if level == 2:
            yield from self.impls(entry)
            yield f'<p class="faint">{entry.file.relative_to(TOP)}</p>'
        yield "</section>"

    def impls(self, entry):
        """Yields the traits of a type, with the clauses that their functions have there."""
        if entry.kind in ("function", "trait", "macro"):
            return
        name = entry.path.rpartition("::")[2]
        has = traits(entry.library, name, entry.item)
        if has:
            yield f"<p>Implements {', '.join(map(code, has))}.</p>"
        for of, impl in entry.library.impls(name):
            said = [*ghosts(impl)]
            inner = [it for it in impl.inner if it.head.startswith("fn") and it.clauses]
            if of and "Sealed" not in of and (said or inner):
                file = entry.library.file_of(impl)
                yield f"<details><summary>{code(impl.head)}</summary>"
                yield from self.contract(said, file)
                for one in inner:
                    yield f"<pre>{escape(one.head)}</pre>"
                    yield from self.contract(one.clauses, file)
                yield "</details>"

    def items(self, library):
        """Yields the page of a library's items."""
        crate = library.crate
        markup = self.markup(f"the comment of {crate}", crate, crate)
        yield f"<h1>Library {code(crate)}</h1>"
        yield markup.page("\n".join(comment(library.source / "lib.rt")))
        below = [link(f"{it}.html", code(it)) for it in self.below[crate] if it in self.entries]
        if below:
            yield f"<p>Stands on {', '.join(below)}.</p>"
        if specs(crate):
            yield f"<p>{link(f'{crate}.definitions.html', 'Its definitions')}.</p>"
        yield f"<p>How to call it: {code(f'crates/{crate}/CALLING.md')}.</p>"
        yield "<ul>"
        for entry in self.entries[crate]:
            said = self.markup(entry.path, crate, entry.path).line(entry.item.sentence)
            name = link(f"#{entry.anchor}", code(entry.anchor))
            yield f"<li>{name} <small>{entry.kind}</small> {said}</li>"
        yield "</ul>"
        if self.elsewhere[crate]:
            yield "<h2>Items of other libraries under its paths</h2><ul>"
            for path, of in self.elsewhere[crate]:
                to = self.resolve(path, of.partition("::")[0], path.rpartition("::")[2])
                shown = link(to, code(path)) if to else code(path)
                yield f"<li>{shown} <small>of {escape(of)}</small></li>"
            yield "</ul>"
        for entry in self.entries[crate]:
            yield from self.item(entry, 2)
        yield "<h2>Files</h2>"
        files = [(it.relative_to(library.source), first_sentence(it)) for it in library.items]
        yield table(["file", "what it has"], ((code(str(it)), markup.line(of)) for it, of in files))

    # The pages of definitions

    def definitions_in(self, path, crate):
        """Yields what a file of definitions has: its own comment, and its text, with links."""
        text = path.read_text(encoding="utf-8")
        lines, uses, places = text.splitlines(), uses_of(text), {}
        for number, word, _ in defining(crate, path.stem):
            places.setdefault(number, []).append(word)
            uses.setdefault(word, (crate, path.stem, word))
        begins = next((at for at, it in enumerate(lines) if not it.startswith("--")), len(lines))
        head = " ".join(it.lstrip("- ") for it in lines[:begins])
        yield f'<section id="{path.stem}"><h2>{link(f"#{path.stem}", path.stem)}</h2>'
        yield f"<p>{plain.line(head)}</p>"
        yield "<pre>"
        for number, line in enumerate(lines[begins:], begins):
            names = (html.escape(f"{path.stem}.{it}") for it in places.get(number, []))
            marks = "".join(f'<span id="{it}"></span>' for it in names)
            yield marks + (escape(line) if line.startswith("--") else self.linked(line, uses))
        yield "</pre></section>"

    def definitions(self, crate):
        """Yields the page of a library's definitions."""
        of = link(f"{crate}.html", code(crate))
        yield f"<h1>Definitions of {code(crate)}</h1>"
        yield f"<p>What the clauses of {of} speak of, in {code(f'crates/{crate}/specs')}.</p>"
        for path in specs(crate):
            yield from self.definitions_in(path, crate)

    def standard(self):
        """Yields the page of the toolchain's definitions."""
        yield "<h1>Definitions of the toolchain's library</h1>"
        yield "<p>Those that the contracts use.</p>"
        rows = []
        for row in dict.fromkeys(self.toolchain.values()):
            marks = "".join(f'<span id="{html.escape(it)}"></span>' for it in row.names)
            rows.append((marks + plain.line(row.shown), plain.line(row.prose)))
        yield table(["definition", "meaning"], rows)

    # All pages

    def front(self):
        """Yields the first page."""
        version = (TOP / "VERSION").read_text(encoding="utf-8").strip()
        yield f"<h1>Kombilad {version}: the libraries</h1>"
        yield "<p>Each public item with its comment and contract. Type <kbd>/</kbd> to search.</p>"
        rows = []
        for library in self.libraries:
            crate, path = library.crate, library.source / "lib.rt"
            said = self.markup(f"the comment of {crate}", crate, crate).line(first_sentence(path))
            more = f" ({link(f'{crate}.definitions.html', 'definitions')})" if specs(crate) else ""
            rows.append((link(f"{crate}.html", code(crate)), said + more))
        yield table(["library", "what it has"], rows)
        yield f"<p>{link(ERRORS, 'All errors')}, with what they mean and what to do.</p>"
        yield f"<p>{link(f'{STANDARD}.html', 'Definitions of the toolchain')}.</p>"

    def contents(self, crate, name):
        """Yields the lists beside a page."""
        lists = [[link("index.html", "All libraries"), link(ERRORS, "All errors")]]
        if name == ERRORS:
            lists.append(self.errors_page.contents())
        if crate:
            page = f"{crate}.html"
            items = (link(f"{page}#{it.anchor}", code(it.anchor)) for it in self.entries[crate])
            lists.append([link(page, code(crate)), *items])
            page = f"{crate}.definitions.html"
            files = [link(f"{page}#{it.stem}", it.stem) for it in specs(crate)]
            lists.append([link(page, "Definitions"), *files] if files else [])
        for each in lists:
            yield f"<ul>{''.join(f'<li>{it}</li>' for it in each)}</ul>"

    def put(self, name, title, crate, lines):
        """Adds a page."""
        self.pages[name] = self.template.substitute(
            title=escape(title),
            contents="".join(self.contents(crate, name)),
            content="\n".join(lines),
        )

    def index(self):
        """Yields what the search finds: the path, the kind, the link and a sentence of each."""
        for crate, entries in self.entries.items():
            for entry in [each for one in entries for each in (one, *one.members)]:
                if entry not in self.errors_page.variants:
                    yield entry.path, entry.kind, entry.href, Markup.plain(entry.item.sentence)
            for path in specs(crate):
                for word, said in self.definitions_of(crate, path.stem).items():
                    to = self.word(crate, path.stem, word)
                    yield f"{crate}::{word}", "definition", to, Markup.plain(said)
        yield from self.errors_page.index()

    def make(self):
        """Makes all pages, and finds what is wrong with them."""
        self.put("index.html", "Kombilad", None, self.front())
        self.put(f"{STANDARD}.html", "Definitions of the toolchain", None, self.standard())
        self.put(ERRORS, "Errors", None, self.errors_page.content())
        for library in self.libraries:
            crate = library.crate
            self.put(f"{crate}.html", crate, crate, self.items(library))
            if specs(crate):
                name, title = f"{crate}.definitions.html", f"Definitions of {crate}"
                self.put(name, title, crate, self.definitions(crate))
        entries = list(self.index())
        self.pages["index.js"] = f"const ENTRIES = {json.dumps(entries, ensure_ascii=False)}\n"
        self.errors += broken_links(self.pages, [to for _, _, to, _ in entries])
        self.errors = list(dict.fromkeys(self.errors))


def is_toolchain(crate):
    """Whether a library is the toolchain's: std, or one of the kit."""
    return not (CRATES / crate).is_dir()


def specs(crate):
    """Returns the files of a library's definitions, without those that have only proofs."""
    found = sorted((CRATES / crate / "specs").glob("*.antt"))
    return [it for it in found if it.stem not in ("Lib", "Lemmas")]


def comment(path):
    """Returns the lines of a file's own comment."""
    lines = path.read_text(encoding="utf-8").splitlines()
    return [it.removeprefix("//!").removeprefix(" ") for it in lines if it.startswith("//!")]


def first_sentence(path):
    """Returns the first sentence of a file's own comment."""
    return Item(comment(path), [], [""], "").sentence


def broken_links(pages, others):
    """Yields the links of pages, and those others, that lead to no page or to no place of one."""
    places = {
        name: {html.unescape(it) for it in re.findall(r' id="([^"]*)"', text)}
        for name, text in pages.items()
    }
    links = [("the search", it) for it in others]
    for name, text in pages.items():
        found = dict.fromkeys(re.findall(r' href="([^"]*)"', text))
        links += [(name, html.unescape(it)) for it in found if it not in ASSETS]
    for name, to in links:
        page, _, place = to.partition("#")
        page = page or name
        if page not in pages or place and place not in places[page]:
            yield f"{name} links to {to}, which isn't there"


def main():
    if len(sys.argv) > 2 or sys.argv[1:] and sys.argv[1].startswith("-"):
        sys.exit(__doc__)
    folder = pathlib.Path(sys.argv[1]) if sys.argv[1:] else TOP / "out" / "doc"
    try:
        reference = Reference()
        reference.make()
        folder.mkdir(parents=True, exist_ok=True)
        for name, text in reference.pages.items():
            (folder / name).write_text(text, encoding="utf-8")
        for name in ASSETS:
            shutil.copyfile(HERE / name, folder / name)
    except NotBuilt as wrong:
        sys.exit(f"doc: {wrong}")
    except OSError as wrong:
        sys.exit(
            f"doc: {wrong.filename or folder}: {wrong.strerror}; give a folder that you can write to: ./doc FOLDER"
        )
    for error in reference.errors:
        print(f"doc: {error}")
    count = sum(1 + len(it.members) for entries in reference.entries.values() for it in entries)
    print(f"doc: {count} public items, {len(reference.errors)} errors: {folder / 'index.html'}")
    return 1 if reference.errors else 0


if __name__ == "__main__":
    sys.exit(main())
