"""The rows that were measured, as Markdown and as a file, and the conditions of the measurement."""

import csv
import datetime
import os
import platform
import re
from types import SimpleNamespace

import harness

RESULTS = harness.BENCH / "results"
COLUMNS = ["what", "bytes", "this project", "best peer", "peer", "ratio"]

# The groups of rows, by how their names begin.
GROUPS = {
    "CIDs": ["cid "],
    "Blocks decoded": ["decode "],
    "Links of blocks": ["links "],
    "Trees encoded": ["encode "],
    "Links of trees": ["references "],
    "Trees walked": ["iter "],
    "Trees cloned": ["clone "],
    "Typed values": ["block to", "struct to", "tree to struct"],
    "Nodes of DAG-PB": ["node "],
    "CAR files": ["missing "],
}


def grouped(rows):
    """The rows of each group that has some."""
    groups = (
        (title, [row for row in rows if row.name.startswith(tuple(heads))])
        for title, heads in GROUPS.items()
    )
    return [(title, members) for title, members in groups if members]


class Report:
    """What was measured: `time`, in nanoseconds, or `instructions`."""

    def __init__(self, rows, crates, unit):
        self.rows, self.crates, self.unit = rows, crates, unit

    def text(self):
        """Returns the table as Markdown, below the conditions."""
        measured = {"time": "Time", "instructions": "Instructions, by callgrind,"}[self.unit]
        head = ["| what | bytes | this project | best peer | ratio |", "|---|---|---|---|---|"]
        lines = [self.line(row) for _, members in grouped(self.rows) for row in members]
        return "\n".join(
            [f"{measured} of one piece of work, on {self.conditions()}.", "", *head, *lines]
        )

    def conditions(self):
        """Returns the day, the machine and the versions."""
        peers = [f"`{name}` {self.crates.versions[name]}" for name in self.crates.had]
        not_had = (
            f"; not had: {', '.join(f'`{name}`' for name in self.crates.lacking)}"
            if self.crates.lacking
            else ""
        )
        return (
            f"{datetime.date.today()}, on {machine()}; this project at commit `{commit()}`, proved with `{kit()}`; "
            f"`{rustc()}`; peers: `plain` of `bench/`{''.join(', ' + peer for peer in peers)}{not_had}"
        )

    def line(self, row):
        peer = (
            f"{amount(row.best_peer[1], self.unit)} (`{row.best_peer[0]}`)"
            if row.best_peer
            else "not had"
        )
        ratio = f"{row.ratio:.2f}" if row.ratio else ""
        return f"| {row.name} | {row.size:,} | {amount(row.ours, self.unit)} | {peer} | {ratio} |"

    def write(self):
        """Writes the conditions and the rows to the file of this unit."""
        with open(file_of(self.unit), "w", newline="", encoding="utf-8") as file:
            file.write(f"# {self.conditions()}\n")
            table = csv.writer(file, lineterminator="\n")
            table.writerow(COLUMNS)
            for _, members in grouped(self.rows):
                table.writerows(cells(row) for row in members if row.best_peer)


def file_of(unit):
    return RESULTS / f"{unit}.csv"


def cells(row):
    """Returns the cells of a row in a file, with numbers of three digits or more."""
    peer, peers = row.best_peer
    amounts = [f"{it:.0f}" if it >= 100 else f"{it:.3g}" for it in (row.ours, peers)]
    return [row.name, row.size, *amounts, peer, f"{row.ratio:.2f}"]


def results(unit):
    """Returns the conditions and the rows of a file."""
    with open(file_of(unit), newline="", encoding="utf-8") as file:
        conditions = file.readline().removeprefix("# ").rstrip("\n")
        rows = [
            SimpleNamespace(
                name=row["what"],
                size=int(row["bytes"]),
                ours=float(row["this project"]),
                best_peer=(row["peer"], float(row["best peer"])),
                ratio=float(row["ratio"]),
            )
            for row in csv.DictReader(file)
        ]
    return conditions, rows


def amount(number, unit):
    """Returns a number with its unit, as pages show it."""
    if unit == "instructions":
        return f"{number:,.0f}"
    if number < 1000:
        return f"{number:.0f} ns" if number >= 10 else f"{number:.1f} ns"
    return f"{number / 1000:.3g} µs" if number < 999_500 else f"{number / 1e6:.3g} ms"


def machine():
    """The processor's name and how many cores there are."""
    name = platform.machine()
    try:
        with open("/proc/cpuinfo", encoding="utf-8") as told:
            name = re.search(r"^model name\s*: (.*)$", told.read(), re.M).group(1)
    except (OSError, AttributeError):
        pass
    return f"{os.cpu_count()} cores of {name} ({platform.system()}, {platform.machine()})"


def commit():
    try:
        words = ["git", "-C", harness.BENCH, "describe", "--always", "--dirty", "--exclude=*"]
        return harness.ran(words, "git").strip()
    except harness.Failed:
        return "unknown"


def kit():
    return harness.ran(["rt", "version"], "rt version").strip()


def rustc():
    return harness.ran(["rustc", "--version"], "rustc").strip()
