#!/usr/bin/env python3
"""Makes the first table and the charts of docs/SPEED.md from the results of bench/run.

usage: bench/chart.py [--check]

The charts speed.svg and instructions.svg have a bar for each of twelve rows of bench/results, with
the best peer at 1, and bindings.svg one for each of three blocks in the tables on the packages. The
peers are explained below the bars. With --check it writes nothing: the status is 1, after a line
for each file that differs, and otherwise 0.
"""

import math
import pathlib
import re
import sys
from types import SimpleNamespace

sys.dont_write_bytecode = True
DOCS = pathlib.Path(__file__).resolve().parent.parent / "docs"
sys.path.append(str(DOCS / "drawing"))
import report  # noqa: E402
from svg import picture, text  # noqa: E402

PAGE = DOCS / "SPEED.md"
MAKER = "bench/chart.py"
WIDTH, MARGIN, LABELS, BARS = 600, 14, 122, 320
ROW, BAR, HEAD = 24, 14, 32

# The file and the heads of the chart of each unit.
CHARTS = {
    "time": (
        "speed.svg",
        ["Time divided by that of the best peer", "Below 1: this project is faster"],
    ),
    "instructions": (
        "instructions.svg",
        ["Instructions divided by those of the best peer", "Below 1: this project takes fewer"],
    ),
}
# The comments around the table of the page, and its rows.
BEGIN, END = "<!-- bench/chart.py writes from here -->\n", "<!-- to here -->\n"
SHOWN = [
    "cid from text",
    "cid to text",
    "decode file",
    "decode strings",
    "links file",
    "links strings",
    "encode file",
    "references file",
    "iter file",
    "clone file",
    "block to struct",
    "struct to block",
    "tree to struct",
    "node of dag-pb",
    "missing in car",
]
# The rows of the table that the charts don't have.
NOT_DRAWN = ["links strings", "references file", "iter file"]
# What the peers are, by their names.
PEERS = {
    "plain": "a strict reader and writer in Rust, of bench/",
    "cid": "the crate for CIDs",
    "ipld-core": "the crate that this project ports",
    "serde_cbor": "a crate that reads any CBOR",
    "serde_ipld_dagcbor": "DAG-CBOR for ipld-core",
    "cbor2": "CBOR by an extension in C, checks less",
    "plain Rust": "a strict reader and writer in Rust, of bench/",
    "plain JS": "a strict reader in JavaScript",
}
BINDINGS = ["Values of blocks: package divided by peer", "Below 1: the package takes less"]
# Each table on the packages: the first words of its head, the column of a ratio, the title of its
# bars, and the peer.
TABLES = [
    ("| block | `Tape::of` |", 6, "Rust: Ipld::from_block, in instructions", "plain Rust"),
    ("| block | `Tape::of` |", 9, "Rust: Ipld::to_block, in instructions", "plain Rust"),
    ("| block | `decode_dag_cbor` |", 3, "Python: decode_dag_cbor, in time", "cbor2"),
    ("| block | `decode_dag_cbor` |", 6, "Python: encode_dag_cbor, in time", "cbor2"),
    ("| block | bytes | `check` |", 8, "JavaScript: decode, in time", "plain JS"),
]
# The blocks of these tables that the chart has.
BLOCKS = ["record", "file", "strings"]


def cells_of(page, head):
    """Returns the cells of each row of a table, by the first words of its head."""
    lines = page[page.index(head) :].split("\n\n")[0].splitlines()[2:]
    rows = [[it.strip(" `") for it in line.strip("|").split("|")] for line in lines]
    return [row for row in rows if len(row) > 1]


def rows(page, head, column, peer):
    """Yields the rows of a table that the chart has, with the ratio in this column."""
    for cells in cells_of(page, head):
        if cells[0] in BLOCKS:
            ratio = float(re.match(r"[\d.]+", cells[column])[0])
            yield SimpleNamespace(name=cells[0], ratio=ratio, best_peer=(peer,))


def charts():
    """Yields the name of each chart, and its text."""
    for unit, (name, heads) in CHARTS.items():
        all_rows = report.results(unit)[1]
        drawn = [row for row in all_rows if row.name in SHOWN and row.name not in NOT_DRAWN]
        foot = f"{len(drawn)} of {len(all_rows)} rows, described in bench/README.md. bench/results has the others."
        yield name, Chart(heads, [("", drawn)], foot).drawn()
    page = PAGE.read_text(encoding="utf-8")
    groups = [(title, list(rows(page, head, column, peer))) for head, column, title, peer in TABLES]
    foot = f"{len(BLOCKS)} blocks of each table. The tables have the others."
    yield "bindings.svg", Chart(BINDINGS, groups, foot).drawn()


def page_with_table():
    """Returns the text of the page with the table of these results."""
    text = PAGE.read_text(encoding="utf-8")
    before, begin, rest = text.partition(BEGIN)
    end, after = rest.partition(END)[1:]
    if not end:
        sys.exit(f"chart: {PAGE.name} lacks the comments around its table")
    return f"{before}{begin}{table()}{end}{after}"


def table():
    """Returns the table as Markdown, with the conditions of the measurements."""
    conditions, times = report.results("time")
    others, instructions = report.results("instructions")
    instructions = {row.name: row for row in instructions}
    lines = [
        f"{sentences(conditions)} {by_callgrind(conditions, others)}\n",
        "| what | bytes | this project | best peer | ratio of times | of instructions |",
        "|---|---|---|---|---|---|",
    ]
    for row in times:
        if row.name in SHOWN:
            ours, best = (report.amount(it, "time") for it in (row.ours, row.best_peer[1]))
            lines.append(
                f"| {row.name} | {row.size:,} | {ours} | {best} (`{row.best_peer[0]}`) "
                f"| {row.ratio:.2f} | {instructions[row.name].ratio:.2f} |"
            )
    return "\n".join(lines) + "\n"


def sentences(conditions):
    """Returns the conditions of the times as sentences."""
    day, project, rustc, peers, *lacking = conditions.split("; ")
    day, machine = day.split(", on ", 1)
    commit, kit = re.match("this project at commit (.*), proved with (.*)", project).groups()
    found = [
        f"The times were measured on {day}, on {machine}.",
        f"This project was at commit {commit}, proved with {kit}.",
        f"The peers were {listed(peers.removeprefix('peers: '))}, compiled by {rustc}.",
    ]
    if lacking:
        names = listed(lacking[0].removeprefix("not had: "))
        found.append(f"Not measured: {names}.")
    return " ".join(found)


def by_callgrind(conditions, others):
    """Returns the conditions of the instructions, as a sentence if they are the same."""
    if others == conditions:
        return "Callgrind counted the instructions on the same day and machine."
    return f"Callgrind counted the instructions. {sentences(others).replace('times', 'instructions', 1)}"


def listed(names):
    """Returns names with `and` before the last."""
    *first, last = names.split(", ")
    return f"{', '.join(first)} and {last}" if first else last


class Chart:
    """A chart of groups of rows, with a key of the peers below it."""

    def __init__(self, heads, groups, foot):
        self.heads, self.groups, self.foot = heads, groups, foot
        most = max((row.ratio for _, members in groups for row in members), default=1.0)
        self.step = next(it for it in (0.25, 0.5, 1, 2, 5, 10) if most / it <= 6 or it == 10)
        self.limit = self.step * math.ceil(max(most, 1.0) / self.step)
        self.peers = dict.fromkeys(row.best_peer[0] for _, rows in groups for row in rows)
        self.left = MARGIN + LABELS
        self.top = 80
        heads_high = sum(HEAD for title, _ in groups if title)
        self.bottom = self.top + 8 + heads_high + sum(ROW * len(members) for _, members in groups)

    def drawn(self):
        """Returns the SVG."""
        parts = [
            text(MARGIN, 28, self.heads[0], 16, bold=True),
            text(MARGIN, 49, self.heads[1], 13, name="quiet"),
            *self.axis(),
            *self.bars(),
        ]
        y = self.bottom + 24
        for name in self.peers:
            parts.append(text(self.left - 8, y, name, 13, anchor="end", bold=True))
            parts.append(text(self.left, y, PEERS[name], 13))
            y += 20
        parts.append(text(MARGIN, y + 4, self.foot, 13, name="quiet"))
        return picture(MAKER, self.heads[0], WIDTH, y + 18, parts)

    def axis(self):
        for number in range(round(self.limit / self.step) + 1):
            x = self.at(number * self.step)
            yield f'<path class="grid" d="M{x} {self.top}V{self.bottom}"/>'
            yield text(
                x, self.top - 7, f"{number * self.step:g}", 12, anchor="middle", name="quiet"
            )

        x = self.at(1.0)
        yield f'<path class="line" d="M{x} {self.top}V{self.bottom}" stroke-width="2"/>'

    def bars(self):
        y = self.top + 8
        for title, members in self.groups:
            if title:
                yield text(MARGIN, y + 20, title, 13, bold=True, name="over")
                y += HEAD
            for row in members:
                yield from self.bar(row, y)
                y += ROW

    def bar(self, row, y):
        end = self.at(row.ratio)
        name = "less" if row.ratio <= 1 else "more"
        yield text(self.left - 8, y + 12, row.name, 13, anchor="end")
        yield f'<rect class="{name}" x="{self.left}" y="{y}" width="{round(end - self.left, 1)}" height="{BAR}" rx="2"/>'
        x = max(end, self.at(1.0)) + 7
        yield text(x, y + 12, f"{row.ratio:.2f} \u00d7 {row.best_peer[0]}", 13, name="over")

    def at(self, ratio):
        return round(self.left + BARS * ratio / self.limit, 1)


def main():
    if sys.argv[1:] not in ([], ["--check"]):
        sys.exit(__doc__)
    wrong = 0
    for name, made in [(PAGE.name, page_with_table()), *charts()]:
        path = DOCS / name
        if not sys.argv[1:]:
            path.write_text(made, encoding="utf-8")
        elif not path.is_file() or path.read_text(encoding="utf-8") != made:
            print(f"chart: docs/{name} differs from the results: run bench/chart.py")
            wrong += 1
    return 1 if wrong else 0


if __name__ == "__main__":
    sys.exit(main())
