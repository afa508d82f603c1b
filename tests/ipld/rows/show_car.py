"""Rows of `ipld show` for CARs: paths that begin at a root or a CID, and lead through links."""

import re

from ..blocks import (
    BARE,
    CUT_CBOR,
    END,
    END_VALUE,
    FAR,
    FOLDER,
    GRAPH,
    GRAPH_CAR,
    INNER,
    INLINE_PB,
    INNER_VALUE,
    LEAF,
    LOST,
    ONE_CID,
    OTHER,
    PART,
    START,
    START_VALUE,
    TWO_CID,
    UNKNOWN_PB_ERROR,
    UNNAMED,
)
from ..formats import sections_of
from . import (
    CHECK_FAILED,
    NO_BLOCK,
    NOT_INSIDE,
    UNKNOWN_HASH,
    WRONG_DIGEST,
    Row,
    cut_payload,
    cut_section,
    dag_json_line,
    fails,
    lines,
)

# The same graph, without an index and with one.
GRAPH_CARS = ("graph.car", "graph2.car")

FOUND = [
    Row(f"show --json {file} {path}", dag_json_line(value))
    for file in GRAPH_CARS
    for path, value in [
        ("", START_VALUE),
        ("end", END.cid),
        ("/end/k/1/deep", "end"),
        ("end/k", [1, {"deep": "end"}]),
        (f"{START.cid}/end/k/0/", 1),
        (f"/ipfs/{START.cid}/end/k/0", 1),
        (f"ipfs/f{END.cid.hex()}//k/0", 1),
        (f"{END.cid}", END_VALUE),
        ("dir/0/Links/0/Hash/k/0", 1),
        ("dir/0/Links/1/Name", "part"),
        ("dir/0/Data", b"\x08\x01"),
        (f"{PART.cid}", b"part"),
        ("bare/k/0", 1),
        (f"{BARE.cid}", END.cid),
        ("in/in/k/0", 1),
        (f"{INNER.cid}", INNER_VALUE),
        (f"{START.cid}/{PART.cid}", 5),
    ]
]

NOT_FOUND = [
    fails(f"show {file} {path}", file, why)
    for file in GRAPH_CARS
    for path, why in [
        (f"{LOST.cid}", f"{LOST.cid}: {NO_BLOCK}"),
        ("lost/a", f"segment 1 of the path is a link to {LOST.cid}, which is not in the CAR"),
        (f"{START.cid}/end/x/y", f'{END.cid}: no key or index "x"'),
        ("end/k/2", f'{END.cid}: no key or index "2" in "k"'),
        ("end/k/0/x", f'{END.cid}: "k/0" {NOT_INSIDE} "x"'),
        ("no/x", f'{START.cid}: no key or index "no"'),
        ("dir/0/Links/1/Hash/x", f'{PART.cid}: the value {NOT_INSIDE} "x"'),
        (
            "other/x",
            f"{OTHER.cid}: the codec json is not supported (ipld car extract writes the block)",
        ),
        ("wrong/0", f"{LEAF.cid}: {WRONG_DIGEST}"),
        (f"{FAR.cid}", f"{FAR.cid}: {UNKNOWN_HASH}"),
        (
            "bad/0",
            f"{CUT_CBOR.cid}: not valid DAG-CBOR: "
            "the bytes end where an item has to begin at byte 2",
        ),
    ]
]

OTHER_OPTIONS = [
    row
    for file in GRAPH_CARS
    for row in [
        Row(f"show {file} dir/0/Links/1/Hash", lines(PART.cid)),
        Row(f"show -p end/k/0 {file} {file}", "1\n1\n"),
        Row(f"show --unchecked {file} {FAR.cid}", "h'666172'\n"),
        Row(
            f"show --unchecked {file} {LEAF.cid}",
            "",
            re.compile(f"ipld: {file}: {LEAF.cid}: not valid DAG-CBOR: .*\n"),
            CHECK_FAILED,
        ),
    ]
]

ODD_CARS = [
    fails(
        "show --unchecked circle.car a",
        "circle.car",
        f"{ONE_CID}: the links form a cycle through this block",
    ),
    Row("show --unchecked spiral.car a/a/a", lines(TWO_CID)),
    fails(
        "show empty.car", "empty.car", "the CAR has no root; begin the path with the CID of a block"
    ),
    fails(f"show empty.car {PART.cid}", "empty.car", f"{PART.cid}: {NO_BLOCK}"),
    fails(
        "show unnamed.car",
        "unnamed.car",
        f"{UNNAMED.cid}: the codec 0x300001 is not supported (ipld car extract writes the block)",
    ),
    # Of two roots the first is shown.
    fails("show carries.car", "carries.car", f"{INLINE_PB.cid}: {UNKNOWN_PB_ERROR}"),
    # Of two blocks with a CID the first is shown.
    fails("show again.car b/p/x", "again.car", f'{PART.cid}: the value {NOT_INSIDE} "x"'),
]

# The program reads a file only as far as it has to.
SIZE = len(GRAPH_CAR)
CUT = cut_section(sections_of([START.cid], GRAPH)[-1], SIZE - 1)
SHORT = cut_payload(SIZE + 9, SIZE)
TRUNCATED = [
    Row("show after_cut.car dir/0/Data", "h'0801'\n"),
    fails(f"show after_cut.car {LOST.cid}", "after_cut.car", CUT),
    Row(f"car extract after_cut.car {FOLDER.cid}", FOLDER.data),
    fails(f"car extract after_cut.car {LOST.cid}", "after_cut.car", CUT),
    Row("show after_short.car dir/0/Data", "h'0801'\n"),
    fails(f"show after_short.car {LOST.cid}", "after_short.car", SHORT),
]
