"""Rows of all commands for DAG-JSON, as files and in CARs."""

import re

from ..blocks import LEAF, PART, TOP, TYPED, TYPED_LINKS, TYPED_VALUE
from ..formats import car
from ..invalid import CUT_JSON, CUT_JSON_ERROR, INVALID_JSON_BLOCKS, JSON_ENDS
from . import (
    CHECK_FAILED,
    ERROR,
    Row,
    dag_json_line,
    fails,
    json_lines,
    lines,
    message,
    usage_error,
)

BLOCKS = [
    Row("show -c dag-json block.json --json", dag_json_line(TYPED_VALUE)),
    Row("show -c dag-json block.json aa/x", "h'6869'\n"),
    Row("show -c dag-json block.json b", f"[\n  1\n  -5\n  1.5\n  {LEAF.cid}\n]\n"),
    fails("show -c dag-json block.json aa/z", "block.json", 'no key or index "z" in "aa"'),
    Row("links -c dag-json block.json", lines(*TYPED_LINKS)),
    Row(
        "links --json -c dag-json block.json",
        json_lines({"file": "block.json", "links": TYPED_LINKS}),
    ),
    Row("check -c dag-json block.json", "block.json: valid\n"),
    Row(
        "check --canonical -c dag-json block.json",
        "",
        usage_error("--canonical works only with --codec dag-cbor"),
        ERROR,
    ),
    Row("cid -c dag-json block.json", lines(TYPED.cid)),
]

INVALID = [
    row
    for it in INVALID_JSON_BLOCKS
    for why in [f"not valid DAG-JSON: {it.sentence}"]
    for row in [
        fails(f"show -c dag-json {it.name}", it.name, why),
        fails(f"links -c dag-json {it.name}", it.name, why),
        fails(f"check -c dag-json {it.name}", it.name, why),
        fails(f"cid -c dag-json {it.name}", it.name, why),
        Row(
            f"check --json -c dag-json {it.name}",
            json_lines(
                {"file": it.name, "valid": False, "error": it.error, "at": it.at, "message": why}
            ),
            status=CHECK_FAILED,
        ),
    ]
]

# The encoder reports the same error in a text.
FLOAT = next(it for it in INVALID_JSON_BLOCKS if it.name == "no_float.json")
ENCODED = [fails("encode no_float.json", "no_float.json", FLOAT.sentence)]

# The message ends with the codec that the file seems to have.
CODECS = [
    Row(command, "", re.compile(pattern), CHECK_FAILED)
    for command, pattern in [
        (
            "check block.json",
            r"ipld: block.json: not valid DAG-CBOR: .* at byte \d+"
            r" \(it is a block of DAG-JSON: use --codec dag-json\)\n",
        ),
        (
            "check -c dag-json value.cbor",
            r"ipld: value.cbor: not valid DAG-JSON: .* \(byte \d+\): .*"
            r" \(it is a block of DAG-CBOR: use --codec dag-cbor\)\n",
        ),
    ]
]

IN_CARS = [
    Row("show json.car b/3/0", '"leaf"\n'),
    Row("show --json json.car", dag_json_line(TYPED_VALUE)),
    Row(
        "car list json.car",
        lines(
            "version 1",
            f"root {TYPED.cid}",
            f"{TYPED.cid} dag-json {len(TYPED.data)} bytes, 2 links",
            f"{LEAF.cid} dag-cbor {len(LEAF.data)} bytes, 0 links",
        ),
    ),
    Row("car links json.car", lines(*(f"{TYPED.cid} {cid}" for cid in TYPED_LINKS))),
    Row("car missing json.car", lines(PART.cid), status=CHECK_FAILED),
    Row("car verify json.car"),
    Row(f"car extract json.car {TYPED.cid}", TYPED.data),
    Row("car create -o - dag-json:block.json car:top.car", car([TYPED.cid, TOP.cid], [TYPED, TOP])),
]

CUT = message(
    "bad_json.car", f"{CUT_JSON.cid} at byte {len(car([CUT_JSON.cid], []))}: {CUT_JSON_ERROR}"
)
INVALID_IN_CARS = [
    fails(
        "show bad_json.car",
        "bad_json.car",
        f"{CUT_JSON.cid}: not valid DAG-JSON: line 1, column 7 (byte 6): {JSON_ENDS}",
    ),
    Row(
        "car list bad_json.car",
        lines(
            "version 1",
            f"root {CUT_JSON.cid}",
            f"{CUT_JSON.cid} dag-json {len(CUT_JSON.data)} bytes, no block of its codec",
            f"{LEAF.cid} dag-cbor {len(LEAF.data)} bytes, 0 links",
        ),
        CUT,
        CHECK_FAILED,
    ),
    Row("car missing bad_json.car", "", CUT, CHECK_FAILED),
    fails(
        "car create -o - dag-json:no_end.json",
        "no_end.json",
        f"not valid DAG-JSON: line 1, column 7 (byte 6): {JSON_ENDS}",
    ),
]
