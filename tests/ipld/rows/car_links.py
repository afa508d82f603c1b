"""Rows of `ipld car --links` and `ipld car --dot`."""

import re

from ..blocks import CAR, EMPTY, INLINE, LEAF, LOST, NODE, OLD_CID, PART, TOP
from . import CHECK_FAILED, CUT_CAR, INVALID_IN_CAR, NO_ROOTS, Row, fails, lines, message

LINKED = [LEAF.cid, LOST.cid, INLINE.cid]
LISTED = lines(*(f"{TOP.cid} {cid}" for cid in LINKED))

LINKS = [
    Row("car links empty.car", "", NO_ROOTS),
    Row("car links a.car", LISTED),
    Row(
        "car links node.car",
        lines(*(f"{NODE.cid} {cid}" for cid in (PART.cid, OLD_CID, EMPTY.cid))),
    ),
    # An invalid block is reported, and the links of the others follow.
    Row("car links bad.car", LISTED, INVALID_IN_CAR, CHECK_FAILED),
    fails("car links cut.car", "cut.car", CUT_CAR, out=LISTED),
    Row("car links no.car", "", re.compile(r"ipld: no.car: .* at byte \d+\n"), CHECK_FAILED),
    Row(
        "car links --progress a.car",
        LISTED,
        message("a.car", f"{len(CAR)} of {len(CAR)} bytes read"),
    ),
]

DRAWN = lines(
    "digraph car {",
    f'  "{TOP.cid}" [shape=box];',
    *(f'  "{TOP.cid}" -> "{cid}";' for cid in LINKED),
    "}",
)
GRAPHS = [
    Row("car graph empty.car", "digraph car {\n}\n", NO_ROOTS),
    Row("car graph a.car", DRAWN),
    Row("car graph bad.car", DRAWN, INVALID_IN_CAR, CHECK_FAILED),
]
