"""Rows of `ipld car` that list blocks."""

import re

from ..blocks import CAR, CUT_CBOR, INLINE, LAST_AT, LEAF, LOST, OTHER, PART, TOP, UNKNOWN_PB
from ..formats import PAYLOAD_AT, sections_of
from . import (
    CHECK_FAILED,
    CUT_CAR,
    INVALID_IN_CAR,
    NO_ROOTS,
    Row,
    cut_payload,
    cut_section,
    fails,
    json_lines,
    lines,
    message,
)

LISTED = [
    f"root {TOP.cid}",
    f"{TOP.cid} dag-cbor {len(TOP.data)} bytes, 3 links",
    f"{LEAF.cid} dag-cbor {len(LEAF.data)} bytes, 0 links",
    f"{PART.cid} raw 4 bytes, 0 links",
    f"{OTHER.cid} json 2 bytes, links not known",
]


def objects_of(roots, blocks):
    """
    Returns the objects that `--json` prints for a CAR. A block is with its codec, and with what its
    links or its error add.
    """
    offsets = sections_of(roots, [block for block, _, _ in blocks])
    return [{"version": 1, "roots": roots}] + [
        {"cid": block.cid, "codec": codec, "offset": offset, "size": len(block.data), **more}
        for (block, codec, more), offset in zip(blocks, offsets)
    ]


BLOCKS = [
    Row("car list a.car", lines("version 1", *LISTED)),
    Row("car list two.car", lines("version 2", *LISTED)),
    Row("car list empty.car", "version 1\n", NO_ROOTS),
]

TRUNCATED = [
    fails("car list cut.car", "cut.car", CUT_CAR, out=lines("version 1", *LISTED[:-1])),
    fails(
        "car list two_cut.car",
        "two_cut.car",
        cut_payload(len(CAR), len(CAR) - 1),
        out=lines("version 2", *LISTED[:-1]),
    ),
    fails(
        "car list two_short.car",
        "two_short.car",
        cut_payload(len(CAR) + 100, len(CAR)),
        out=lines("version 2", *LISTED),
    ),
    fails("car list two_header.car", "two_header.car", cut_payload(len(CAR), 9)),
    fails(
        "car list two_none.car",
        "two_none.car",
        "not a CAR, or truncated: the header is cut off at byte 51",
    ),
    fails(
        "car list two_within.car",
        "two_within.car",
        cut_section(PAYLOAD_AT + LAST_AT, PAYLOAD_AT + len(CAR) - 1),
        out=lines("version 2", *LISTED[:-1]),
    ),
]

AS_JSON = [
    Row("car list --json empty.car", '{"version":1,"roots":[]}\n', NO_ROOTS),
    Row(
        "car list --json a.car",
        json_lines(
            *objects_of(
                [TOP.cid],
                [
                    (TOP, "dag-cbor", {"links": [LEAF.cid, LOST.cid, INLINE.cid]}),
                    (LEAF, "dag-cbor", {"links": []}),
                    (PART, "raw", {"links": []}),
                    (OTHER, "json", {}),
                ],
            )
        ),
    ),
]

# An invalid block is reported, and the listing goes on after it.
INVALID_BLOCKS = [
    Row(
        "car list bad.car",
        lines(
            "version 1",
            f"root {TOP.cid}",
            f"{CUT_CBOR.cid} dag-cbor {len(CUT_CBOR.data)} bytes, no block of its codec",
            f"{TOP.cid} dag-cbor {len(TOP.data)} bytes, 3 links",
            f"{UNKNOWN_PB.cid} dag-pb {len(UNKNOWN_PB.data)} bytes, no block of its codec",
            f"{LEAF.cid} dag-cbor {len(LEAF.data)} bytes, 0 links",
        ),
        INVALID_IN_CAR,
        CHECK_FAILED,
    ),
    Row(
        "car list --json bad.car",
        json_lines(
            *objects_of(
                [TOP.cid],
                [
                    (CUT_CBOR, "dag-cbor", {"error": "End", "at": 2}),
                    (TOP, "dag-cbor", {"links": [LEAF.cid, LOST.cid, INLINE.cid]}),
                    (UNKNOWN_PB, "dag-pb", {"error": "UnknownField", "at": 0}),
                    (LEAF, "dag-cbor", {"links": []}),
                ],
            )
        ),
        status=CHECK_FAILED,
    ),
]

PROGRESS = [
    Row(
        "car list --progress two.car",
        lines("version 2", *LISTED),
        message("two.car", f"{PAYLOAD_AT + len(CAR)} of {PAYLOAD_AT + len(CAR)} bytes read"),
    )
]

# The message ends with what the file seems to be.
HINTS = [
    Row(command, "", re.compile(pattern), CHECK_FAILED)
    for command, pattern in [
        ("car list words", r"ipld: words: .* at byte \d+ \(it looks like text\)\n"),
        (
            "car list value.cbor",
            r"ipld: value.cbor: .* at byte \d+"
            r" \(it is a block of DAG-CBOR: ipld show reads it\)\n",
        ),
    ]
]
