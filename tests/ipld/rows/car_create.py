"""Rows of `ipld car create` that write a CAR to standard output."""

import errno
import re

from ..blocks import (
    ALL,
    CAR,
    CARRIER_BLOCKS,
    CARRIER_ROOTS,
    CUT_CBOR,
    CUT_CBOR_ERROR,
    DATA_FIRST,
    FAR,
    HELLO,
    INLINE,
    INLINE_PB,
    LEAF,
    LOOP,
    LOST,
    NEAR,
    NODE,
    NODE_V1,
    ONE_CID,
    PART,
    TOP,
    TRAP,
    TREE,
    TWICE,
    UNKNOWN_PB_ERROR,
    WITH_INVALID,
)
from ..formats import car, car_indexed, sections_of
from . import (
    CHECK_FAILED,
    CUT_CAR,
    ERROR,
    UNKNOWN_HASH,
    WRONG_DIGEST,
    Row,
    fails,
    message,
    system_error,
    usage_error,
)


def makes(arguments, roots, blocks, err=""):
    """Returns the row of arguments that create a CAR with these roots and blocks."""
    return Row(f"car create -o - {arguments}", car(roots, blocks), err)


def refuses(arguments, name, why):
    """Returns the row of arguments of which no CAR is created."""
    return fails(f"car create -o - {arguments}", name, why)


MIXED = [NODE_V1, HELLO, ALL]
MIXED_CIDS = [it.cid for it in MIXED]
# A block is a root unless another one links to it, also through a CID that contains a block.
OF_BLOCKS = [
    makes("leaf.cbor top.cbor", [TOP.cid], [LEAF, TOP]),
    makes("top.cbor raw:lost", [TOP.cid], [TOP, LOST]),
    makes("dag-pb:node.pb raw:plain value.cbor", MIXED_CIDS, MIXED),
    makes("-c raw dag-pb:node.pb plain dag-cbor:value.cbor", MIXED_CIDS, MIXED),
    makes("raw:plain raw:./plain", [HELLO.cid], [HELLO]),
    makes("-c dag-pb node.pb first.pb", [NODE_V1.cid, DATA_FIRST.cid], [NODE_V1, DATA_FIRST]),
    Row(
        "car create -o new.car plain",
        "",
        re.compile("ipld: plain: not valid DAG-CBOR: .*\n"),
        CHECK_FAILED,
    ),
]

# The roots are those of all CARs, once each. A CAR without roots adds none.
OF_CARS = [
    makes("car:a.car", [TOP.cid], TREE),
    makes("car:a.car car:a.car car:two.car", [TOP.cid], TREE),
    makes("car:a.car car:no_roots.car", [TOP.cid], TREE),
    makes("car:whole.car car:a.car", [LEAF.cid, TOP.cid], [LEAF, TOP, PART, TREE[3]]),
    makes("car:empty.car", [], []),
    makes("car:inline.car", [INLINE.cid], [INLINE]),
    # If the inputs have no roots, each block is one that no other block links to.
    makes("car:no_roots.car", [PART.cid], [PART]),
    # Of two blocks with a CID the first is taken, and the second isn't checked.
    makes("car:again.car", [TWICE[0].cid], [TWICE[0], TWICE[1], TWICE[3]]),
    # A block that links to itself is a root.
    makes("--unchecked car:loop.car", [ONE_CID], LOOP),
]

# A block of a file is a root unless another block links to it, or if a CAR has it as a root.
OF_BLOCKS_AND_CARS = [
    makes("raw:lost car:a.car raw:plain", [TOP.cid, HELLO.cid], [LOST, *TREE, HELLO]),
    makes("leaf.cbor car:whole.car car:a.car", [LEAF.cid, TOP.cid], [LEAF, TOP, PART, TREE[3]]),
]

NO_ROOT = "warning: the block of this root is not in the CAR"
CHANGED = "an input changed while it was read; try again"
ROOTS = [
    makes(f"--root {TOP.cid} car:a.car", [TOP.cid], TREE),
    makes(
        f"--root {PART.cid} --root {TOP.cid} car:two.car leaf.cbor car:a.car car:whole.car",
        [PART.cid, TOP.cid],
        TREE,
    ),
    makes(f"--root {LOST.cid} raw:plain", [LOST.cid], [HELLO], err=message(LOST.cid, NO_ROOT)),
    # The CID of a root may contain its block.
    makes(f"--root {NEAR.cid} raw:plain", [NEAR.cid], [HELLO]),
    Row(
        "car create -o - --root no-cid raw:plain",
        "",
        re.compile("ipld: no-cid: not a CID: .*\n"),
        ERROR,
    ),
]

# Blocks of DAG-PB get CIDs of version 0, and others don't.
V0 = [
    makes("--v0 dag-pb:node.pb raw:plain", [NODE.cid, HELLO.cid], [NODE, HELLO]),
    makes("--v0 -c dag-pb node.pb", [NODE.cid], [NODE]),
]

# Options that have no effect on the inputs.
WITHOUT_EFFECT = [
    Row(f"car create -o - {arguments}", "", usage_error(why), ERROR)
    for arguments, why in [
        ("--unchecked raw:plain", "--unchecked applies only to CARs: give one as car:FILE"),
        (
            "--v0 raw:plain car:a.car",
            "--v0 applies only to blocks of DAG-PB: give one as dag-pb:FILE",
        ),
        (
            "--codec raw dag-cbor:leaf.cbor car:a.car",
            "--codec applies only to files without a prefix such as car: or raw:",
        ),
    ]
]

# Names of files, one on each line, after those of the arguments.
FILES_FROM = [
    (b"leaf.cbor\n\ntop.cbor\n", makes("--files-from -", [TOP.cid], [LEAF, TOP])),
    (b"raw:lost", makes("top.cbor --files-from -", [TOP.cid], [TOP, LOST])),
    (
        b"\n",
        Row(
            "car create -o - --files-from -",
            "",
            usage_error("--files-from <LIST> names no file"),
            ERROR,
        ),
    ),
    (
        b"-\n",
        Row(
            "car create -o - --files-from -",
            "",
            usage_error("'-' is given more than once, but standard input can be read only once"),
            ERROR,
        ),
    ),
    (
        b"",
        fails(
            "car create -o - --files-from no-such",
            "no-such",
            system_error(errno.ENOENT),
            ERROR,
        ),
    ),
]

# Inputs that can be read only once.
FROM_INPUT = [
    (CAR, makes("car:-", [TOP.cid], TREE)),
    (CAR, Row("car create -o - --version 2 car:-", car_indexed([TOP.cid], TREE))),
    (CAR, makes("car:/dev/stdin raw:plain", [TOP.cid, HELLO.cid], [*TREE, HELLO])),
    (HELLO.data, makes("raw:- raw:lost", [HELLO.cid, LOST.cid], [HELLO, LOST])),
    (HELLO.data, makes("car:a.car raw:/dev/stdin", [TOP.cid, HELLO.cid], [*TREE, HELLO])),
    (CAR[:-1], refuses("car:-", "-", CUT_CAR)),
]

# A block of a CAR is taken only if it is valid and has the digest of its CID.
TRAP_AT = len(car([], [LEAF]))
FAR_AT = len(car([FAR.cid], []))
CUT_AT = len(car([TOP.cid], []))
CARRIER_AT = sections_of(CARRIER_ROOTS, CARRIER_BLOCKS)[1]
REFUSED = [
    refuses("car:wrong.car", "wrong.car", f"{PART.cid} at byte {TRAP_AT}: {WRONG_DIGEST}"),
    refuses("car:far.car", "far.car", f"{FAR.cid} at byte {FAR_AT}: {UNKNOWN_HASH}"),
    refuses("car:bad.car", "bad.car", f"{CUT_CBOR.cid} at byte {CUT_AT}: {CUT_CBOR_ERROR}"),
    # It links to a CID that contains an invalid block.
    refuses(
        "car:carries.car",
        "carries.car",
        f"{INLINE_PB.cid} at byte {CARRIER_AT}: {UNKNOWN_PB_ERROR}",
    ),
    refuses("carries.cbor", "carries.cbor", f"{INLINE_PB.cid}: {UNKNOWN_PB_ERROR}"),
    refuses("car:cut.car", "cut.car", CUT_CAR),
]

# An invalid block has no links.
UNCHECKED = [
    makes("--unchecked car:wrong.car", [LEAF.cid, PART.cid], [LEAF, TRAP]),
    makes("--unchecked car:far.car", [FAR.cid], [FAR, NEAR]),
    makes("--unchecked car:bad.car", [TOP.cid], WITH_INVALID),
    makes("--unchecked car:carries.car", CARRIER_ROOTS, CARRIER_BLOCKS),
]
