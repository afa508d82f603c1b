"""Rows of `ipld car missing`."""

import errno
import re

from ..blocks import (
    CAR,
    CARRIER,
    CARRIER_BLOCKS,
    CARRIER_ROOTS,
    CUT_CBOR,
    CUT_CBOR_ERROR,
    EMPTY,
    INLINE_BREAK,
    INLINE_CBOR,
    INLINE_PB,
    LEAF,
    LOST,
    NODE,
    NODE_V1,
    OLD_CID,
    PART,
    UNKNOWN_PB_ERROR,
)
from ..formats import JSON, block, car, sections_of
from . import (
    CHECK_FAILED,
    CUT_CAR,
    ERROR,
    INVALID_IN_CAR,
    UNKNOWN_LINKS,
    Row,
    json_lines,
    lines,
    message,
    system_error,
)


def missing(command, *cids, err=""):
    """Returns the row of a command that lists these CIDs."""
    return Row(command, lines(*cids), err, CHECK_FAILED)


def missing_as_json(command, *cids, err=""):
    """Returns the row of a command that lists these CIDs as objects."""
    return Row(command, json_lines(*({"missing": cid} for cid in cids)), err, CHECK_FAILED)


ONE_CAR = [
    Row("car missing empty.car"),
    Row("car missing whole.car"),
    missing("car missing a.car", LOST.cid, err=UNKNOWN_LINKS),
    missing(
        "car missing --progress a.car",
        LOST.cid,
        err=message("a.car", f"{len(CAR)} of {len(CAR)} bytes read") + UNKNOWN_LINKS,
    ),
    missing("car missing top.car", LEAF.cid, LOST.cid),
    missing("car missing node.car", OLD_CID, EMPTY.cid),
    missing("car missing inline.car", LOST.cid),
]

CUT = message("cut.car", CUT_CAR)
SEVERAL_CARS = [
    missing("car missing top.car whole.car", LOST.cid),
    missing("car missing whole.car top.car", LOST.cid),
    missing("car missing top.car node.car first.car", LEAF.cid, LOST.cid, OLD_CID, EMPTY.cid),
    Row("car missing whole.car empty.car"),
    missing(
        "car missing whole.car a.car a.car",
        LOST.cid,
        err="ipld: warning: the links of 2 blocks are unknown, "
        "because their codecs are not supported\n",
    ),
    Row("car missing top.car cut.car whole.car", "", CUT, CHECK_FAILED),
    Row(
        "car missing top.car no-such cut.car",
        "",
        message("no-such", system_error(errno.ENOENT)) + CUT,
        ERROR,
    ),
]

AS_JSON = [
    missing_as_json("car missing --json a.car", LOST.cid, err=UNKNOWN_LINKS),
    missing_as_json("car missing --json top.car", LEAF.cid, LOST.cid),
    missing_as_json("car missing --json top.car whole.car", LOST.cid),
    Row("car missing --json whole.car"),
    missing_as_json("car missing --json node.car", OLD_CID, EMPTY.cid),
]

# An invalid block is reported, also one that a CID contains, and the others are still read.
AT = sections_of(CARRIER_ROOTS, CARRIER_BLOCKS)
INVALID_BLOCKS = [
    missing("car missing bad.car", LOST.cid, err=INVALID_IN_CAR),
    missing(
        "car missing carries.car",
        LOST.cid,
        err="".join(
            message("carries.car", f"{cid} at byte {at}: {why}")
            for cid, at, why in [
                (INLINE_PB.cid, 0, UNKNOWN_PB_ERROR),
                (INLINE_CBOR.cid, AT[CARRIER_BLOCKS.index(CARRIER)], CUT_CBOR_ERROR),
                (INLINE_PB.cid, AT[CARRIER_BLOCKS.index(CARRIER)], UNKNOWN_PB_ERROR),
                (CUT_CBOR.cid, AT[CARRIER_BLOCKS.index(CUT_CBOR)], CUT_CBOR_ERROR),
            ]
        ),
    ),
    Row(
        "car missing carried.car",
        "",
        re.compile(
            re.escape(f"ipld: carried.car: {INLINE_BREAK.cid} at byte 0: not valid DAG-CBOR: ")
            + ".*\n"
        ),
        CHECK_FAILED,
    ),
]

# A block is there under each codec and version, unless whole CIDs are compared.
PART_AS_JSON = car([PART.cid], [block(JSON, PART.data)])
NODE_AS_V1 = car([NODE.cid], [NODE_V1, PART])
UNDER_OTHER_CIDS = [
    (PART_AS_JSON, Row("car missing -", "", UNKNOWN_LINKS)),
    (PART_AS_JSON, missing("car missing --by-cid -", PART.cid, err=UNKNOWN_LINKS)),
    (NODE_AS_V1, missing("car missing -", OLD_CID, EMPTY.cid)),
    (NODE_AS_V1, missing("car missing --by-cid -", NODE.cid, OLD_CID, EMPTY.cid)),
]
