"""Rows of `ipld show` for blocks."""

import re

from ..blocks import ALL_SHOWN, ALL_VALUE, CAR, EMPTY, NODE_VALUE, OLD_CID
from ..invalid import INVALID_CBOR
from . import CHECK_FAILED, ERROR, NOT_INSIDE, Row, dag_json_line, fails, json_lines, lines

RESERVED = (
    "DAG-JSON cannot contain the map at byte {}, "
    'because its first key is "/" (use show without --json)'
)

VALUES = [
    Row("show value.cbor", ALL_SHOWN),
    # Python writes the exponent with a sign.
    Row("show value.cbor --json", dag_json_line(ALL_VALUE).replace("1e+300", "1e300")),
    Row("show -c dag-pb node.pb --json", dag_json_line(NODE_VALUE)),
    Row("show -c raw plain", "h'68656c6c6f'\n"),
    Row("show -c raw a.car", f"h'{CAR.hex()}'\n"),
    Row(
        "show slash.cbor --json",
        '{"!":{"/":5},"y":{"/":{"":0,"bytes":"x"}},"z":{"/":{"bytes":1}}}\n',
    ),
    fails("show link.cbor --json", "link.cbor", RESERVED.format(0)),
    fails("show bytes.cbor --json", "bytes.cbor", RESERVED.format(3)),
]

PATHS = [
    Row("show value.cbor aa/0", lines(EMPTY.cid)),
    Row("show value.cbor /aa//3/", "-5\n"),
    Row("show value.cbor text --json", json_lines(ALL_VALUE["text"])),
    Row("show -c dag-pb node.pb Links/0/Name", '"part.txt"\n'),
    fails("show value.cbor aa/6", "value.cbor", 'no key or index "6" in "aa"'),
    fails("show value.cbor c", "value.cbor", 'no key or index "c"'),
    fails("show value.cbor b/0", "value.cbor", f'"b" {NOT_INSIDE} "0"'),
    # A string with the text of a CID is not a link.
    fails("show named.cbor k/a", "named.cbor", f'"k" {NOT_INSIDE} "a"'),
    # A second file is not a path.
    fails(
        "show value.cbor plain",
        "value.cbor",
        'no key or index "plain" (plain is a file: for several files, use --path /)',
    ),
]

LINK = "segment {} of the path is a link to {}, and only a CAR has linked blocks"
PATHS_THROUGH_LINKS = [
    fails("show value.cbor old/a", "value.cbor", LINK.format(1, OLD_CID)),
    fails("show value.cbor /aa//0/b/c", "value.cbor", LINK.format(2, EMPTY.cid)),
    fails("show -c dag-pb node.pb Links/1/Hash/x", "node.pb", LINK.format(3, OLD_CID)),
]

SEVERAL_FILES = [
    Row("show --path b value.cbor unsorted.cbor", "1\n1\n"),
    Row(
        "show --json -p / unsorted.cbor plain unsorted.cbor",
        '{"a":2,"b":1}\n{"a":2,"b":1}\n',
        re.compile("ipld: plain: not valid .*\n"),
        CHECK_FAILED,
    ),
    Row(
        "show -p b no-such plain value.cbor",
        "1\n",
        re.compile("ipld: no-such: .*\nipld: plain: not valid .*\n"),
        ERROR,
    ),
]

# Characters, floats and bytes that are often written wrongly.
CHARACTERS = [
    Row("show control.cbor k", '"\\u0000\\u001f ~\\u007f\\u0080\\u009f\u00a0"\n'),
    Row("show --json control.cbor k", '"\\u0000\\u001f ~\u007f\u0080\u009f\u00a0"\n'),
    Row("show control.cbor f", "[\n  -0.0\n  0.0\n]\n"),
    Row("show --json control.cbor f", "[-0.0,0.0]\n"),
    Row("show control.cbor x", "h'fbffbf'\n"),
    Row("show --json control.cbor x", '{"/":{"bytes":"+/+/"}}\n'),
]

# Below 40 levels, lines show the level number instead of indentation.
LEVELS = [
    Row(
        "show deep.cbor",
        lines(
            *("  " * level + "[" for level in range(41)),
            "  " * 40 + "(41) [",
            "  " * 40 + "(42) null",
            "  " * 40 + "(41) ]",
            *("  " * level + "]" for level in reversed(range(41))),
        ),
    )
]

INVALID = [fails(f"show {it.name}", it.name, it.why + it.hint) for it in INVALID_CBOR]

# The message ends with the codec that the file seems to have.
CODECS = [
    Row(command, "", re.compile(pattern), CHECK_FAILED)
    for command, pattern in [
        (
            "show node.pb",
            r"ipld: node.pb: not valid DAG-CBOR: \d+ bytes left over after the value, from byte 1"
            r" \(it is a block of DAG-PB: use --codec dag-pb\)\n",
        ),
        (
            "show -c dag-pb value.cbor",
            r"ipld: value.cbor: not valid DAG-PB: .* at byte \d+"
            r" \(it is a block of DAG-CBOR: use --codec dag-cbor\)\n",
        ),
        (
            "show -c dag-cbor a.car",
            r"ipld: a.car: not valid DAG-CBOR: .* from byte \d+"
            r" \(it is a CAR file: ipld car reads it\)\n",
        ),
        (
            "show -c dag-cbor two.car",
            r"ipld: two.car: not valid DAG-CBOR: .* from byte \d+"
            r" \(it is a CAR file: ipld car reads it\)\n",
        ),
    ]
]
