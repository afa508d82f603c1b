"""Writes SVG: the frame of a picture, its texts, boxes and arrows.

A picture has its own ground, so that it is legible on any page. Its colours are classes of STYLE,
light or dark as the system of the reader prefers.
"""

from xml.sax.saxutils import escape

SANS = "system-ui, -apple-system, 'Segoe UI', Helvetica, Arial, sans-serif"
MONO = "ui-monospace, SFMono-Regular, Menlo, Consolas, 'DejaVu Sans Mono', monospace"
# A class, its attribute, and its colours on light and on dark ground.
COLOURS = [
    ("text", "fill", "#1f2328", "#e6edf3"),
    (".quiet", "fill", "#57606a", "#9ea7b3"),
    (".ground", "fill", "#ffffff", "#0d1117"),
    (".ground", "stroke", "#d0d7de", "#30363d"),
    (".over", "stroke", "#ffffff", "#0d1117"),
    (".grid", "stroke", "#d0d7de", "#30363d"),
    (".line", "stroke", "#57606a", "#9ea7b3"),
    (".head", "fill", "#57606a", "#9ea7b3"),
    (".less", "fill", "#1f77c4", "#4a9ae0"),
    (".more", "fill", "#c4621a", "#d9803a"),
]
# The fill and the line of each hue, on light and on dark ground.
HUES = {
    "grey": ("#f1f3f5", "#9aa4af", "#1c2229", "#5b6673"),
    "blue": ("#dcebfb", "#6fa3d8", "#10304f", "#3f78b3"),
    "green": ("#d9f2df", "#63b37a", "#0f3a22", "#3b8f57"),
    "yellow": ("#fbf0c4", "#c9a93a", "#3d3208", "#93791f"),
    "purple": ("#ebdff7", "#a47fcb", "#32204a", "#7f57ad"),
    "orange": ("#fde3cc", "#d8905a", "#47270d", "#ad6527"),
    "red": ("#fbdde2", "#d77e8e", "#4a1a24", "#ad4a5c"),
    "teal": ("#d2f0f1", "#5bb0b5", "#0d383b", "#34878c"),
}


def style():
    """Returns the rules of the classes."""
    rows = list(COLOURS)
    for hue, (fill, line, dark_fill, dark_line) in HUES.items():
        rows += [(f".{hue}", "fill", fill, dark_fill), (f".{hue}", "stroke", line, dark_line)]
    light = "".join(f"{name}{{{what}:{colour}}}" for name, what, colour, _ in rows)
    dark = "".join(f"{name}{{{what}:{colour}}}" for name, what, _, colour in rows)
    return (
        f"<style>text{{font-family:{SANS}}}.mono{{font-family:{MONO}}}"
        f".over{{paint-order:stroke;stroke-width:4px}}{light}\n"
        f"@media (prefers-color-scheme:dark){{{dark}}}</style>"
    )


def picture(maker, title, width, height, parts):
    """Returns the text of a picture with these parts, which `maker` makes."""
    return "\n".join(
        [
            f'<svg xmlns="http://www.w3.org/2000/svg" viewBox="0 0 {width} {height}" width="{width}" height="{height}" role="img">',
            f"<!-- Made by {maker}. -->",
            f"<title>{escape(title)}</title>",
            style(),
            f'<rect class="ground" x="0.5" y="0.5" width="{width - 1}" height="{height - 1}" rx="6"/>',
            *parts,
            "</svg>\n",
        ]
    )


def text(x, y, words, size=13, anchor="start", bold=False, name=""):
    """Returns a line of text, whose class is `name`."""
    attributes = f' class="{name}"' if name else ""
    if anchor != "start":
        attributes += f' text-anchor="{anchor}"'
    if bold:
        attributes += ' font-weight="600"'
    return f'<text x="{x}" y="{y}" font-size="{size}"{attributes}>{escape(words)}</text>'


def box(x, y, width, height, hue):
    """Returns a box."""
    return f'<rect class="{hue}" x="{x}" y="{y}" width="{width}" height="{height}" rx="5"/>'


def arrow(x, y, to):
    """Returns an arrow along a line of the page."""
    back = to - 8 if to > x else to + 8
    return (
        f'<path class="line" d="M{x} {y}H{back}" stroke-width="2"/>'
        f'<path class="head" d="M{to} {y}L{back} {y - 5}V{y + 5}Z"/>'
    )
