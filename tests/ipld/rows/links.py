"""Rows of `ipld links`."""

import re

from ..blocks import EMPTY, OLD_CID, PART
from ..invalid import INVALID_CBOR
from . import CHECK_FAILED, ERROR, Row, fails, json_lines, lines

LINKS = [EMPTY.cid, OLD_CID]

BLOCKS = [
    Row("links value.cbor", lines(*LINKS)),
    Row("links --codec dag-pb node.pb", lines(PART.cid, OLD_CID, EMPTY.cid)),
    Row("links --codec raw plain"),
]

SEVERAL_FILES = [
    Row(
        "links value.cbor plain value.cbor",
        lines(*LINKS, *LINKS),
        re.compile("ipld: plain: .*\n"),
        CHECK_FAILED,
    ),
    Row("links no-such plain", "", re.compile("ipld: no-such: .*\nipld: plain: .*\n"), ERROR),
    Row(
        "links --json value.cbor unsorted.cbor",
        json_lines({"file": "value.cbor", "links": LINKS}, {"file": "unsorted.cbor", "links": []}),
    ),
]

INVALID = [fails(f"links {it.name}", it.name, it.why + it.hint) for it in INVALID_CBOR]

INVALID_AS_JSON = [
    Row(
        f"links --json {it.name}",
        json_lines(
            {"file": it.name, "valid": False, "error": it.error, "at": it.at, "message": it.why}
        ),
        status=CHECK_FAILED,
    )
    for it in INVALID_CBOR
]
