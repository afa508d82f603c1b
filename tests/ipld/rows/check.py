"""Rows of `ipld check`."""

import errno
import re
import shlex

from ..blocks import ALL
from ..files import ODD_NAME
from ..invalid import INVALID_CBOR
from . import (
    CHECK_FAILED,
    ERROR,
    NOT_CANONICAL,
    Row,
    fails,
    json_lines,
    message,
    system_error,
    usage_error,
)

CBOR = [
    Row("check value.cbor unsorted.cbor", "value.cbor: valid\nunsorted.cbor: valid\n"),
    fails(
        "check cut.cbor value.cbor",
        "cut.cbor",
        f"not valid DAG-CBOR: the bytes end within a float at byte {len(ALL.data) - 9}",
        out="value.cbor: valid\n",
    ),
    fails(
        "check after.cbor",
        "after.cbor",
        f"not valid DAG-CBOR: 1 byte left over after the value, from byte {len(ALL.data)}",
    ),
]

CANONICAL = [
    fails(
        "check --canonical value.cbor unsorted.cbor",
        "unsorted.cbor",
        NOT_CANONICAL,
        out="value.cbor: valid\n",
    ),
    Row(
        "check --canonical -c raw plain",
        "",
        usage_error("--canonical works only with --codec dag-cbor"),
        ERROR,
    ),
]

PB = [
    Row("check -c dag-pb node.pb first.pb", "node.pb: valid\nfirst.pb: valid\n"),
    fails(
        "check -c dag-pb twice.pb",
        "twice.pb",
        "not valid DAG-PB: a field is repeated or out of order at byte 3",
    ),
    fails(
        "check -c dag-pb unknown.pb",
        "unknown.pb",
        "not valid DAG-PB: unknown field 3 of wire type 2 at byte 0",
    ),
    fails(
        "check -c dag-pb no_hash.pb",
        "no_hash.pb",
        "not valid DAG-PB: a link does not begin with its hash at byte 2",
    ),
]

UNSORTED = {"file": "unsorted.cbor", "valid": True}
AS_JSON = [
    Row("check --json unsorted.cbor", json_lines(UNSORTED)),
    Row(
        "check --json --canonical unsorted.cbor",
        json_lines(
            {
                "file": "unsorted.cbor",
                "valid": False,
                "error": "NotCanonical",
                "message": NOT_CANONICAL,
            }
        ),
        status=CHECK_FAILED,
    ),
    Row(
        "check --json no-such unsorted.cbor",
        json_lines(UNSORTED),
        message("no-such", system_error(errno.ENOENT)),
        ERROR,
    ),
    Row(
        "check --json -c dag-pb node.pb unknown.pb",
        json_lines(
            {"file": "node.pb", "valid": True},
            {
                "file": "unknown.pb",
                "valid": False,
                "error": "UnknownField",
                "at": 0,
                "message": "not valid DAG-PB: unknown field 3 of wire type 2 at byte 0",
            },
        ),
        status=CHECK_FAILED,
    ),
    Row(f"check --json {shlex.quote(ODD_NAME)}", json_lines({"file": ODD_NAME, "valid": True})),
]

INVALID = [fails(f"check {it.name}", it.name, it.why + it.hint) for it in INVALID_CBOR]

INVALID_AS_JSON = [
    Row(
        f"check --json {it.name}",
        json_lines(
            {"file": it.name, "valid": False, "error": it.error, "at": it.at, "message": it.why}
        ),
        status=CHECK_FAILED,
    )
    for it in INVALID_CBOR
]

# The message ends with what the file seems to be.
HINTS = [
    Row(command, "", re.compile(pattern), CHECK_FAILED)
    for command, pattern in [
        (
            "check named",
            r"ipld: named: .* from byte \d+"
            r" \(it is the text of a CID: ipld cid --text reads it\)\n",
        ),
        ("check words", r"ipld: words: .* at byte \d+ \(it looks like text\)\n"),
    ]
]
