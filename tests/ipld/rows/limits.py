"""Rows of all commands for the limits `--limit` and `--split`."""

import re
import shlex

from ..blocks import HELLO, LEAF, LOST, TOP, WORDS
from ..files import UNITS
from ..formats import car, car_indexed, cbor, varint
from . import ERROR, Row, cut_section, fails

LIMIT = "over the limit (raise it with --limit)"

# The only section of `top.car`, and the header before it.
SECTION = len(TOP.cid) + len(TOP.data)
SECTION_AT = len(car([TOP.cid], []))
HEADER = SECTION_AT - 1
WITHIN = [
    Row(f"car links --limit {size} top.car", re.compile(f"({TOP.cid} .*\n){{3}}"))
    for size in (SECTION, "1K", "9M", "1G")
]
OVER = [
    fails(command, "top.car", f"the section is {SECTION} bytes, {LIMIT}, at byte {SECTION_AT}")
    for command in [
        f"car links --limit {SECTION - 1} top.car",
        f"car missing --limit {SECTION - 1} top.car",
        f"car verify --limit {SECTION - 1} top.car",
        f"car extract --limit {SECTION - 1} top.car {LEAF.cid}",
        f"car create -o - --limit {SECTION - 1} car:top.car",
        f"show --limit {SECTION - 1} top.car {LEAF.cid}",
    ]
] + [
    fails(
        f"car list --limit {HEADER - 1} top.car",
        "top.car",
        f"the CAR header is {HEADER} bytes, {LIMIT}, at byte 0",
    )
]

# Units. Such a section is over the limit by its length, also if the file ends before.
EMPTY_CAR = len(car([], []))
OF_UNITS = [
    row
    for unit, size in UNITS.items()
    for row in [
        fails(
            f"car verify --limit 1{unit} long{unit}.car",
            f"long{unit}.car",
            cut_section(EMPTY_CAR, EMPTY_CAR + len(varint(size)) + 1),
        ),
        fails(
            f"car verify --limit=1{unit} over{unit}.car",
            f"over{unit}.car",
            f"the section is {size + 1} bytes, {LIMIT}, at byte {EMPTY_CAR}",
        ),
    ]
]

INVALID_SIZES = [
    Row(
        f"{command} {shlex.quote(f'{option}={size}')} {file}",
        "",
        re.compile(f"error: invalid value '{re.escape(size)}' for '{option} <SIZE>': .*\n\n.*\n"),
        ERROR,
    )
    for size in ("", "0", "-1", "1T", "1k", "K", "0G", "+1", "1 K", f"{2**64}", f"{2**34}G")
    for command, option, file in [
        ("car list", "--limit", "a.car"),
        ("show", "--limit", "a.car"),
        ("car create -o new.car", "--split", "raw:plain"),
    ]
]

# A CAR that is created has a header and sections that can be read with the same limit.
BLOCKS = [HELLO, LOST, WORDS]
CIDS = [it.cid for it in BLOCKS]


def header_of(roots):
    """Returns the number of bytes of a header with these roots."""
    return len(cbor({"roots": roots, "version": 1}))


def creates(limit, options, content):
    """Returns the row of a CAR of the blocks with this limit."""
    return Row(f"car create -o - --limit {limit} {options} raw:plain raw:lost raw:words", content)


def too_many_roots(limit, options, count, files="raw:plain raw:lost raw:words"):
    """Returns the row of a CAR whose header would be over the limit."""
    return fails(
        f"car create -o - --limit {limit} {options} {files}",
        "standard output",
        f"the header would be over the limit (roots: {count}); "
        "name fewer with --root, or raise --limit",
        ERROR,
    )


ONE, THREE = header_of(CIDS[:1]), header_of(CIDS)
CREATED = [
    row
    for options, form in [("", car), ("--version 2", car_indexed)]
    for with_root in [f"{options} --root {CIDS[0]}"]
    for row in [
        creates(THREE, options, form(CIDS, BLOCKS)),
        too_many_roots(THREE - 1, options, 3),
        creates(THREE - 1, with_root, form(CIDS[:1], BLOCKS)),
        creates(ONE, with_root, form(CIDS[:1], BLOCKS)),
        too_many_roots(ONE - 1, with_root, 1),
    ]
]
HELLO_SECTION = len(HELLO.cid) + len(HELLO.data)
CREATED_OF_ONE_BLOCK = [
    too_many_roots(HELLO_SECTION, "", 1, files="raw:plain"),
    fails(
        f"car create -o - --limit {HELLO_SECTION - 1} raw:plain",
        "plain",
        f"its section would be {HELLO_SECTION} bytes, {LIMIT}",
        ERROR,
    ),
]
