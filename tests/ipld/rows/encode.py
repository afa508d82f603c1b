"""Rows of `ipld encode`."""

import re

from .. import texts
from ..formats import cbor, dag_json
from ..invalid import NOT_ENCODED
from . import ERROR, Row, fails

ENCODED = [
    Row("encode value.json", cbor(texts.KINDS_VALUE)),
    Row("encode --canonical value.json --codec dag-cbor", cbor(texts.KINDS_VALUE)),
    Row("encode typed.json", cbor(texts.BY_HAND_VALUE)),
    Row("encode floats.json", cbor(texts.FLOATS_VALUE)),
    Row("encode --canonical written.json", cbor(texts.CANONICAL_FLOATS_VALUE)),
    # The line feed at the end is not part of the value.
    Row("encode --canonical line.json", cbor([1])),
    Row("encode level.json", b"\x81" * 1023 + b"\x80"),
    Row("encode -c dag-json typed.json", dag_json(texts.BY_HAND_VALUE)),
    Row("encode -c dag-json value.json --canonical", texts.KINDS),
    Row("encode -c dag-json wide.json", "[18446744073709551616]"),
    Row("encode -c raw bytes.json", b"\xfb\xff\xbf"),
]

NOT_IN_CODEC = [
    fails(
        "encode -c raw value.json",
        "value.json",
        '--codec raw requires a value that is bytes: {"/":{"bytes":".."}}',
    ),
    *(
        fails(
            f"encode -c {codec} float.json",
            "float.json",
            "line 2, column 2 (byte 7): a float (only --codec dag-cbor allows floats)",
        )
        for codec in ("dag-json", "raw")
    ),
    fails(
        "encode -c dag-json too_wide.json",
        "too_wide.json",
        "line 1, column 2 (byte 1): the integer is below -2^127 or above 2^127 - 1",
    ),
]

NOT_CANONICAL = [
    fails(
        f"encode --canonical {name}.json",
        f"{name}.json",
        f"line 1, column {column} (byte {byte}): "
        "not canonical DAG-JSON (without --canonical, it is read)",
    )
    for name, column, byte in [
        ("unsorted", 3, 2),
        ("escape", 3, 2),
        ("long", 5, 4),
        ("hundred", 3, 2),
    ]
]

INVALID = [fails(f"encode {it.name}", it.name, it.sentence) for it in NOT_ENCODED]

ARGUMENTS = [
    Row("encode no-such", "", re.compile("ipld: no-such: .*\n"), ERROR),
    Row("encode --force value.json", "", re.compile("(?s)error: .*"), ERROR),
    Row("encode value.json typed.json", "", re.compile("(?s)error: .*"), ERROR),
]
