"""The instructions of the rows on values, by valgrind's callgrind: steadier than times on a busy
machine.

usage: python instructions.py FOLDER-OF-THE-DATA PROGRAM
"""

import re
import subprocess
import sys


def collected(*words):
    """How many instructions a program takes."""
    told = subprocess.run(
        ["valgrind", "--tool=callgrind", "--callgrind-out-file=/dev/null", *words],
        stderr=subprocess.PIPE,
        text=True,
        check=True,
    ).stderr
    return int(re.search(r"Collected : (\d+)", told).group(1))


def of_one(*words, few=2, many=12):
    """How many each time takes, of a program whose last word says how often."""
    return (collected(*words, str(many)) - collected(*words, str(few))) / (many - few)


def main():
    folder, program = sys.argv[1:]
    listed = subprocess.run(
        [program, folder, "rows"], stdout=subprocess.PIPE, text=True, check=True
    ).stdout
    print("| work | instructions | the peer's | peer | ratio |\n|---|---|---|---|---|")
    for number, line in enumerate(listed.splitlines()):
        name, peer = line.split("\t")
        ours, theirs = (
            of_one(program, folder, "do", str(number), who) for who in ("ours", "theirs")
        )
        print(f"| {name} | {ours:,.0f} | {theirs:,.0f} | {peer} | {ours / theirs:.2f} |")


if __name__ == "__main__":
    main()
