"""The comments of the sources as HTML: what of Markdown they use."""

import html
import re

INLINE = re.compile(
    r"\[`([^`]+)`\](?:\(([^)\s]*)\))?|`([^`]+)`|\[([^\]`]+)\]\((\S+?)\)|\*\*([^*]+)\*\*|\*([^*]+)\*"
)
ITEM = re.compile(r"(- |\d+\. )(.*)")


def escape(text):
    return html.escape(text, quote=False)


def code(text):
    return f"<code>{escape(text)}</code>"


def link(to, shown):
    return f'<a href="{html.escape(to)}">{shown}</a>'


def table(heads, rows):
    """Returns a table of HTML, of rows of cells."""
    lines = [f"<tr>{''.join(f'<td>{it}' for it in row)}</tr>" for row in rows]
    return f"<table><tr>{''.join(f'<th>{it}' for it in heads)}</tr>{''.join(lines)}</table>"


class Markup:
    """
    Makes HTML of paragraphs, lists, tables, headings and code. `link` returns the link to an item
    by its name, or nothing.
    """

    def __init__(self, link):
        self.link = link

    @staticmethod
    def plain(text):
        """Returns a text without its marks."""
        return re.sub(r"\[([^\]]+)\]\([^)]*\)", r"\1", text).replace("`", "").replace("**", "")

    def line(self, text):
        """Returns a text within a paragraph."""
        made, at = [], 0
        for found in INLINE.finditer(text):
            made.append(escape(text[at : found.start()]))
            at = found.end()
            item, of, code, shown, target, strong, emphasis = found.groups()
            if item:
                place = self.link(of or item) if self.link else ""
                name = f"<code>{escape(item)}</code>"
                made.append(f'<a href="{html.escape(place)}">{name}</a>' if place else name)
            elif code:
                made.append(f"<code>{escape(code)}</code>")
            elif shown:
                place = self.link(target) if self.link and "/" not in target else ""
                made.append(
                    f'<a href="{html.escape(place)}">{escape(shown)}</a>'
                    if place
                    else escape(shown)
                )
            elif strong:
                made.append(f"<strong>{escape(strong)}</strong>")
            else:
                made.append(f"<em>{escape(emphasis)}</em>")
        return "".join(made) + escape(text[at:])

    def page(self, text):
        """Returns a comment's text."""
        lines, made, at = text.split("\n"), [], 0
        while at < len(lines):
            line = lines[at]
            begin = at
            if line.startswith("```"):
                at = next(
                    (n for n in range(at + 1, len(lines)) if lines[n].startswith("```")), len(lines)
                )
                shown = [it for it in lines[begin + 1 : at] if not it.startswith("# ")]
                made.append(f"<pre>{escape(chr(10).join(shown))}</pre>")
                at += 1
            elif line.startswith("    ") and not line.isspace():
                while at < len(lines) and (lines[at].startswith("    ") or not lines[at].strip()):
                    at += 1
                made.append(
                    f"<pre>{escape(chr(10).join(it[4:] for it in lines[begin:at])).rstrip()}</pre>"
                )
            elif line.startswith("#"):
                made.append(f"<h4>{self.line(line.lstrip('# '))}</h4>")
                at += 1
            elif line.startswith("|"):
                while at < len(lines) and lines[at].startswith("|"):
                    at += 1
                made.append(self.table(lines[begin:at]))
            elif ITEM.match(line):
                items = []
                while at < len(lines) and (ITEM.match(lines[at]) or lines[at].startswith("  ")):
                    found = ITEM.match(lines[at])
                    if found:
                        items.append(found[2])
                    else:
                        items[-1] += " " + lines[at].strip()
                    at += 1
                made.append("<ul>" + "".join(f"<li>{self.line(it)}</li>" for it in items) + "</ul>")
            elif line.strip():
                while (
                    at < len(lines)
                    and lines[at].strip()
                    and not lines[at].startswith(("```", "|", "#"))
                    and not ITEM.match(lines[at])
                ):
                    at += 1
                made.append(f"<p>{self.line(' '.join(it.strip() for it in lines[begin:at]))}</p>")
            else:
                at += 1
        return "\n".join(made)

    def table(self, lines):
        """Returns a table, whose first line is its head."""
        rows = []
        for line in lines:
            cells = [it.strip() for it in re.split(r"(?<!\\)\|", line.strip().strip("|"))]
            if not all(re.fullmatch(r":?-+:?", it) for it in cells):
                tag = "td" if rows else "th"
                rows.append("<tr>" + "".join(f"<{tag}>{self.line(it)}" for it in cells) + "</tr>")
        return "<table>" + "".join(rows) + "</table>"
