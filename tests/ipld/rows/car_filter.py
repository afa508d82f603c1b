"""
Rows of `ipld car filter`, which write a CAR to standard output, each with its standard input.
"""

import re

from ..blocks import CAR, LEAF, LOST, PART, THROUGH, TOP, TRAP
from ..formats import car, car_indexed
from . import CHECK_FAILED, ERROR, WRONG_DIGEST, Row, fails, lines, message, usage_error

# The CID that leads to a descendant contains a block.
BY_IDENTITY = car([], [LOST, PART, THROUGH])
TRAP_AT = len(car([], [LEAF]))

FILTERED = [
    (CAR, Row(f"car filter -o - {arguments}", expected))
    for arguments, expected in [
        (f"a.car {TOP.cid}", car([TOP.cid], [TOP, LEAF])),
        (f"- {TOP.cid}", car([TOP.cid], [TOP, LEAF])),
        (f"a.car {PART.cid} {LEAF.cid}", car([PART.cid, LEAF.cid], [LEAF, PART])),
        (f"a.car {LEAF.cid} --version 1", car([LEAF.cid], [LEAF])),
        (f"a.car {LEAF.cid} --version 2", car_indexed([LEAF.cid], [LEAF])),
    ]
] + [
    (
        BY_IDENTITY,
        Row(f"car filter -o - - {THROUGH.cid}", car([THROUGH.cid], [LOST, THROUGH])),
    ),
    # CIDs on standard input.
    (
        f"{PART.cid}\n\n{LEAF.cid}".encode(),
        Row("car filter -o - a.car -", car([PART.cid, LEAF.cid], [LEAF, PART])),
    ),
    (
        lines(PART.cid).encode(),
        Row(f"car filter -o - a.car {LEAF.cid} -", car([LEAF.cid, PART.cid], [LEAF, PART])),
    ),
    (b"", Row(f"car filter -o - --unchecked wrong.car {PART.cid}", car([PART.cid], [TRAP]))),
]

NOT_FILTERED = [
    (given, row)
    for given, row in [
        (
            b"",
            fails(
                f"car filter -o - a.car {LOST.cid}",
                LOST.cid,
                "no file has a block with this CID",
            ),
        ),
        (
            b"",
            fails(
                f"car filter -o - wrong.car {LEAF.cid}",
                "wrong.car",
                f"{PART.cid} at byte {TRAP_AT}: {WRONG_DIGEST}",
            ),
        ),
        (b"", Row("car filter -o - a.car -", "", usage_error("standard input has no CID"), ERROR)),
        (
            b"x",
            Row("car filter -o - a.car -", "", re.compile("ipld: x: not a CID: .*\n"), ERROR),
        ),
        (
            b"\xff",
            Row(
                "car filter -o - a.car -",
                "",
                message("-", "the input is not valid UTF-8"),
                ERROR,
            ),
        ),
        (
            b"",
            Row(
                "car filter -o - - -",
                "",
                usage_error(
                    "'-' is given more than once, but standard input can be read only once"
                ),
                ERROR,
            ),
        ),
        (
            CAR[:-1],
            Row(f"car filter -o - - {TOP.cid}", "", re.compile("ipld: -: .*\n"), CHECK_FAILED),
        ),
    ]
]
