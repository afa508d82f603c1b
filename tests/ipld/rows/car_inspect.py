"""Rows of `ipld car inspect` and `ipld car roots`."""

import re

from ..blocks import (
    CUT_CBOR,
    CUT_CBOR_ERROR,
    HASHED,
    INLINE_BREAK,
    PART,
    TOP,
    TREE,
    UNKNOWN_PB,
    UNKNOWN_PB_ERROR,
)
from ..formats import car
from . import CHECK_FAILED, NOT_A_CAR, Row, json_lines, lines, message


def summary(version, roots, blocks, codecs, hashes, unknown, invalid, missing):
    """Returns the lines of a summary, with the sizes of these blocks."""
    sizes = [len(it.data) for it in blocks]
    return lines(
        f"version  {version}",
        *(f"root     {it}" for it in roots),
        f"blocks   {len(blocks)}",
        f"bytes    {sum(sizes)} (each block {min(sizes, default=0)} to {max(sizes, default=0)})",
        *(f"codec    {name} {count}" for name, count in codecs.items()),
        *(f"hash     {name} {count}" for name, count in hashes.items()),
        f"unknown  {unknown}",
        f"invalid  {invalid}",
        f"missing  {missing}",
    )


def summary_object(version, roots, blocks, codecs, hashes, unknown, invalid, missing):
    """Returns the same as an object of JSON."""
    sizes = [len(it.data) for it in blocks]
    return json_lines(
        {
            "version": version,
            "roots": roots,
            "blocks": len(blocks),
            "bytes": sum(sizes),
            "smallest": min(sizes, default=0),
            "largest": max(sizes, default=0),
            "codecs": codecs,
            "hashes": hashes,
            "unknown": unknown,
            "invalid": invalid,
            "missing": missing,
        }
    )


# The block of an unknown codec has unknown links. One link leads to no block.
OF_TREE = (1, [TOP.cid], TREE, {"dag-cbor": 2, "raw": 1, "json": 1}, {"sha2-256": 4}, 1, 0, 1)
OF_HASHED = (
    2,
    [PART.cid],
    HASHED,
    {"raw": 3, "dag-cbor": 1, "json": 1, "dag-pb": 1},
    {"sha2-256": 4, "sha2-512": 1, "identity": 1},
    1,
    0,
    2,
)
OF_NOTHING = (1, [], [], {}, {}, 0, 0, 0)

INSPECTED = [
    row
    for file, values in [("a.car", OF_TREE), ("kinds.car", OF_HASHED), ("empty.car", OF_NOTHING)]
    for row in [
        Row(f"car inspect {file}", summary(*values)),
        Row(f"car inspect --json {file}", summary_object(*values)),
    ]
]

# The errors of invalid blocks are reported, and their links are not known.
CUT_AT = len(car([TOP.cid], []))
WITH_ERRORS = [
    Row(
        "car inspect bad.car",
        None,
        message("bad.car", f"{CUT_CBOR.cid} at byte {CUT_AT}: {CUT_CBOR_ERROR}")
        + message(
            "bad.car",
            f"{UNKNOWN_PB.cid} at byte {len(car([TOP.cid], [CUT_CBOR, TREE[0]]))}: "
            f"{UNKNOWN_PB_ERROR}",
        ),
        CHECK_FAILED,
    ),
    # The blocks that the CIDs of roots contain are checked too.
    Row(
        "car inspect carried.car",
        summary(1, [INLINE_BREAK.cid], [], {}, {}, 0, 1, 0),
        re.compile(f"ipld: carried.car: {INLINE_BREAK.cid} at byte 0: not valid DAG-CBOR: .*\n"),
        CHECK_FAILED,
    ),
    Row("car inspect words", "", NOT_A_CAR, CHECK_FAILED),
]

ROOTS = [
    Row("car roots a.car", lines(TOP.cid)),
    Row("car roots --json a.car", json_lines({"root": TOP.cid})),
    Row("car roots empty.car"),
    Row("car roots kinds.car", lines(PART.cid)),
    # Only the header is read.
    Row("car roots cut.car", lines(TOP.cid)),
    Row("car roots words", "", NOT_A_CAR, CHECK_FAILED),
]
