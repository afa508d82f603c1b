"""Rows of all commands for the index of a CAR of version 2.

An index is not trusted: the program uses it if its entries are right, and reports what is wrong.
"""

from ..blocks import (
    CAR,
    FAR,
    GRAPH,
    HASHED,
    HASHED_INDEX_AT,
    LEAF,
    LONG,
    LOST,
    NEAR,
    NOTHING,
    NUMBERS,
    PART,
    START,
    TOP,
    TREE,
    TWICE,
)
from ..files import CARS_WITH_INDEX, ENTRIES
from ..formats import PAYLOAD_AT, car, car_indexed, entries_of, sections_of
from . import CHECK_FAILED, DONE, Row, fails, json_lines, lines, message
from .car_verify import NOT_COMPUTED, OTHER_DIGEST

AT = [PAYLOAD_AT + offset for offset in sections_of([PART.cid], HASHED)]
PART_AT, LONG_AT, NEAR_AT = AT[:3]
NO_ENTRY = "the index has no entry for this block"
OTHER_ENTRY = (
    "ignoring the index: its entry for {} points to byte {}, where that block does not begin"
)

RIGHT = [
    row
    for file in ("kinds.car", "kinds_some.car", "sorted_all.car")
    for row in [
        Row(f"car verify {file}"),
        Row(f"car verify --json {file}"),
        *(Row(f"car extract {file} {cid}", data) for cid, data in HASHED),
    ]
]

LACKS_ENTRIES = [
    Row(
        "car verify kinds_full.car",
        lines(f"{NEAR.cid} at byte {NEAR_AT}: {NO_ENTRY}"),
        status=CHECK_FAILED,
    ),
    Row(
        "car verify nothing_full.car",
        lines(f"{NOTHING.cid} at byte {PAYLOAD_AT + len(car([NOTHING.cid], []))}: {NO_ENTRY}"),
        status=CHECK_FAILED,
    ),
] + [
    row
    for file in ("kinds_lack.car", "sorted_lack.car")
    for row in [
        Row(
            f"car verify {file}",
            lines(f"{LONG.cid} at byte {LONG_AT}: {NO_ENTRY}"),
            status=CHECK_FAILED,
        ),
        Row(
            f"car verify --json {file}",
            json_lines({"cid": LONG.cid, "offset": LONG_AT, "error": "NotIndexed"}),
            status=CHECK_FAILED,
        ),
        Row(f"car extract {file} {LONG.cid}", "long"),
        Row(f"show {file} {LONG.cid}", "h'6c6f6e67'\n", message(file, f"{LONG.cid}: {NO_ENTRY}")),
    ]
]

WRONG_ENTRIES = [
    row
    for wrong, other in [
        ("kinds_wrong.car", "kinds_other.car"),
        ("sorted_wrong.car", "sorted_other.car"),
    ]
    for row in [
        Row(
            f"car verify {wrong}",
            lines(
                f"{LONG.cid} at byte {LONG_AT}: {NO_ENTRY}",
                f"the index points to byte {LONG_AT + 1}, where no block with that digest begins",
            ),
            status=CHECK_FAILED,
        ),
        Row(
            f"car verify --json {wrong}",
            json_lines(
                {"cid": LONG.cid, "offset": LONG_AT, "error": "NotIndexed"},
                {"offset": LONG_AT + 1, "error": "WrongEntry"},
            ),
            status=CHECK_FAILED,
        ),
        Row(
            f"car extract {wrong} {LONG.cid}",
            "long",
            message(wrong, OTHER_ENTRY.format(LONG.cid, LONG_AT + 1)),
        ),
        Row(f"car extract {wrong} {PART.cid}", "part"),
        Row(
            f"car extract {other} {LEAF.cid}",
            LEAF.data,
            message(other, OTHER_ENTRY.format(LEAF.cid, PART_AT)),
        ),
        Row(f"car extract --unchecked {other} {LEAF.cid}", LEAF.data),
        Row(
            f"show {other} {LEAF.cid}/0",
            '"leaf"\n',
            message(other, OTHER_ENTRY.format(LEAF.cid, PART_AT)),
        ),
    ]
]

# Each section has an entry of its own, and no entry is there twice.
TWO_PARTS = [PART, PART]
TWO_ENTRIES = entries_of(TWO_PARTS, [PART.cid])
SECOND_AT = PAYLOAD_AT + sections_of([PART.cid], TWO_PARTS)[1]
NUMBER_OF_ENTRIES = [
    (car_indexed([PART.cid], TWO_PARTS, entries), row)
    for entries, out, object_ in [
        (TWO_ENTRIES, "", None),
        (
            TWO_ENTRIES[:1],
            f"{PART.cid} at byte {SECOND_AT}: {NO_ENTRY}",
            {"cid": PART.cid, "offset": SECOND_AT, "error": "NotIndexed"},
        ),
        (
            TWO_ENTRIES + TWO_ENTRIES[1:],
            f"the index points to byte {SECOND_AT} more than once",
            {"offset": SECOND_AT, "error": "RepeatedEntry"},
        ),
    ]
    for row in [
        Row("car verify new.car", lines(out) if out else "", status=CHECK_FAILED if out else DONE),
        Row(
            "car verify --json new.car",
            json_lines(object_) if object_ else "",
            status=CHECK_FAILED if out else DONE,
        ),
    ]
] + [
    # Without the promise of an entry for each block, only the identity function's may lack one.
    (
        car_indexed([PART.cid], HASHED, ENTRIES[:1] + ENTRIES[3:], full=False),
        Row(
            "car verify new.car",
            lines(f"{LONG.cid} at byte {LONG_AT}: {NO_ENTRY}"),
            status=CHECK_FAILED,
        ),
    )
]

NOT_VALID = [
    row
    for file, why in [
        ("index_long.car", "the index's format is not in its shortest form"),
        (
            "index_other.car",
            "unsupported format of the index: expected 0x400 or 0x401, found 0x4401",
        ),
        ("index_large.car", "the index's format is 2^64 or more"),
        ("index_format_cut.car", "the file ends within the index"),
        ("index_cut.car", "the file ends within the index"),
        ("index_none.car", "the file ends within the index"),
        ("index_narrow.car", "the rows of the index should have 8 to 72 bytes, but have 7"),
        ("index_wide.car", "the rows of the index should have 8 to 72 bytes, but have 73"),
        ("index_odd.car", "the index is not a whole number of rows: its length is 41"),
        ("index_mixed.car", "the index is not sorted"),
    ]
    for ignored in [message(file, f"ignoring the index at byte {HASHED_INDEX_AT}: {why}")]
    for row in [
        fails(
            f"car verify {file}", file, f"cannot read the index at byte {HASHED_INDEX_AT}: {why}"
        ),
        Row(f"show {file}", "h'70617274'\n", ignored),
        Row(f"car extract {file} {LEAF.cid}", LEAF.data, ignored),
    ]
] + [
    fails(
        "car verify far_index.car",
        "far_index.car",
        f"cannot read the index at byte {2**63}: the file ends within the index",
    )
]

# A block that does not match its CID is found also if the index is right.
TRAP_AT, FAR_AT = (PAYLOAD_AT + offset for offset in sections_of([START.cid], GRAPH)[6:8])
WRONG_DIGESTS = [
    Row(
        "car verify graph2.car",
        lines(
            f"{LEAF.cid} at byte {TRAP_AT}: {OTHER_DIGEST}",
            f"{FAR.cid} at byte {FAR_AT}: {NOT_COMPUTED}",
        ),
        status=CHECK_FAILED,
    )
]

# A CAR gets an index, and its payload stays as it is.
INDEXED = [
    ("a.car", car_indexed([TOP.cid], TREE)),
    ("kinds.car", CARS_WITH_INDEX["kinds.car"]),
    ("kinds_other.car", CARS_WITH_INDEX["kinds.car"]),
    ("index_none.car", CARS_WITH_INDEX["kinds.car"]),
    ("again.car", car_indexed([TWICE[0].cid], TWICE)),
    ("empty.car", car_indexed([], [])),
]
INDEXED_COPIES = [Row(f"car index -o - {file}", content) for file, content in INDEXED]
INDEXED_INPUT = [(CAR, Row("car index -o - -", car_indexed([TOP.cid], TREE)))]

# An index is written. The identity CID of no bytes has no entry, so the header doesn't promise one
# for each block.
SEVENTH = NUMBERS[7].cid
WITHOUT_NOTHING = entries_of([NOTHING, PART], [NOTHING.cid])[1:]
CREATED = [
    Row(f"car create -o - --version 2 {arguments}", content)
    for arguments, content in [
        ("top.cbor raw:lost", car_indexed([TOP.cid], [TOP, LOST])),
        (f"--root {PART.cid} car:kinds.car", CARS_WITH_INDEX["kinds.car"]),
        (f"--root {SEVENTH} car:many_small.car", car_indexed([SEVENTH], NUMBERS)),
        ("car:empty.car", car_indexed([], [])),
        (
            f"--root {NOTHING.cid} car:nothing.car",
            car_indexed([NOTHING.cid], [NOTHING, PART], WITHOUT_NOTHING, full=False),
        ),
    ]
]
