"""Rows of all commands for standard input, and for outputs that fail or that nobody reads."""

import re

from ..blocks import ALL, CAR, EMPTY, HASHED_INDEX_AT, HELLO, LONG, LOST, OLD_CID, PART
from ..files import FILES
from ..formats import DAG_CBOR, DAG_PB, RAW, cbor, cid_of
from . import CHECK_FAILED, DONE, ERROR, NO_BLOCK, UNKNOWN_LINKS, Row, fails, lines, message
from .cid import parts_of

# What is given on standard input, and the row.
STANDARD_INPUT = [
    (ALL.data, Row("show - b", "1\n")),
    (ALL.data, Row("check - value.cbor", "-: valid\nvalue.cbor: valid\n")),
    (ALL.data, Row("cid -", lines(cid_of(DAG_CBOR, ALL.data)))),
    (b"x", Row("cid -c raw - plain", lines(cid_of(RAW, b"x"), HELLO.cid))),
    (f"{EMPTY.cid}\n".encode(), Row("cid -t -", parts_of(EMPTY.cid))),
    (
        f"{EMPTY.cid}\r\n{PART.cid}".encode(),
        Row("cid -t -b base16 -", lines(f"f{EMPTY.cid.hex()}", f"f{PART.cid.hex()}")),
    ),
    (
        f"plain\n{OLD_CID}\n".encode(),
        Row(
            "cid -t --v1 -",
            lines(cid_of(DAG_PB, b"old")),
            re.compile("ipld: plain: not a CID: .*\n"),
            CHECK_FAILED,
        ),
    ),
    (
        b"\xff\n",
        fails(f"cid -t - {OLD_CID} --v0", "-", "the input is not valid UTF-8", out=lines(OLD_CID)),
    ),
    (FILES["graph.car"], Row("show - end/k/0", "1\n")),
    (FILES["graph2.car"], Row("show - end/k/0", "1\n")),
    (FILES["graph2.car"], fails(f"show - {LOST.cid}", "-", f"{LOST.cid}: {NO_BLOCK}")),
    (
        FILES["kinds_other.car"],
        Row(f"show - {LONG.cid}", "h'6c6f6e67'\n", re.compile("ipld: -: ignoring the index: .*\n")),
    ),
    (cbor([PART.cid]), Row("links - value.cbor", lines(PART.cid, EMPTY.cid, OLD_CID))),
    (
        cbor([PART.cid]),
        Row("show -p / unsorted.cbor - --json", f'{{"a":2,"b":1}}\n[{{"/":"{PART.cid}"}}]\n'),
    ),
    (CAR, Row("car missing -", lines(LOST.cid), UNKNOWN_LINKS, CHECK_FAILED)),
    (CAR, Row(f"car extract - {PART.cid}", "part")),
    (CAR, Row("car verify --progress -", "", message("-", f"{len(CAR)} bytes read"))),
    # Without a name, the index isn't read.
    (FILES["kinds_wrong.car"], Row("car verify -")),
    # A pipe has no size, and no index is read from it.
    (
        FILES["kinds_wrong.car"],
        Row(
            "car verify --progress /dev/stdin",
            "",
            message("/dev/stdin", f"{HASHED_INDEX_AT} bytes read"),
        ),
    ),
]

# Command lines whose output doesn't fit on the device.
FULL = message("standard output", "cannot write: no storage space")
FULL_DEVICE = [
    Row(command, "", FULL, ERROR)
    for command in [
        "show value.cbor",
        "show --json value.cbor",
        "show -p / value.cbor unsorted.cbor",
        "show large.cbor",
        "show --json large.cbor",
        "show graph.car",
        "show --json graph2.car end/k",
        "links value.cbor",
        "links --json value.cbor",
        "links large.cbor",
        "links --json large.cbor",
        "check value.cbor",
        "check --json value.cbor",
        "check --json plain",
        "cid value.cbor",
        "cid --json value.cbor",
        f"cid {EMPTY.cid}",
        f"cid -b base16 {EMPTY.cid}",
        "car list a.car",
        "car list lacks.car",
        "car list --json a.car",
        "car links a.car",
        "car graph a.car",
        "car missing a.car",
        "car missing lacks.car",
        "car missing --json lacks.car",
        "car verify wrong.car",
        "car verify --json wrong.car",
        "car verify --known far_first.car",
        "car verify kinds_wrong.car",
    ]
] + [
    # The error in the CAR is reported too.
    Row(
        "car list cut.car",
        "",
        re.compile(
            "ipld: cut.car: .* at byte [0-9]+\n"
            "ipld: standard output: cannot write: no storage space\n"
        ),
        ERROR,
    )
]

# Command lines whose standard output is not open.
NO_OUTPUT = [
    fails(command, "standard output", "cannot write: the output may be closed", ERROR)
    for command in [
        "show value.cbor",
        "links --json value.cbor",
        "check value.cbor",
        "cid value.cbor",
        "car list a.car",
        "car missing top.car",
        "car verify wrong.car",
    ]
]

# Files with so many lines that the first are written before the last file is read.
MANY_FILES = " ".join(["value.cbor"] * 500)
# Command lines whose output nobody reads, not even its first byte. Their status is the same as if
# it was read.
UNREAD = [
    Row(command, "", re.compile(err), status)
    for command, err, status in [
        ("--help", "", DONE),
        ("--version", "", DONE),
        ("car --help", "", DONE),
        ("show value.cbor", "", DONE),
        ("show large.cbor", "", DONE),
        ("show graph.car end/k", "", DONE),
        ("links value.cbor", "", DONE),
        ("links plain value.cbor", "ipld: plain: .*\n", CHECK_FAILED),
        ("cid value.cbor", "", DONE),
        ("cid no-such value.cbor", "ipld: no-such: .*\n", ERROR),
        ("check value.cbor value.cbor", "", DONE),
        ("check value.cbor plain", "ipld: plain: .*\n", CHECK_FAILED),
        ("check value.cbor no-such", "ipld: no-such: .*\n", ERROR),
        (f"check {MANY_FILES} no-such", "ipld: no-such: .*\n", ERROR),
        ("car list whole.car", "", DONE),
        ("car list lacks.car", "", DONE),
        ("car list bad.car", "ipld: bad.car: .*\nipld: bad.car: .*\n", CHECK_FAILED),
        ("car list bad_first.car", "ipld: bad_first.car: .*\n", CHECK_FAILED),
        ("car missing a.car", "ipld: warning: .*\n", CHECK_FAILED),
        ("car missing whole.car", "", DONE),
        ("car missing lacks.car", "", CHECK_FAILED),
        ("car missing --json lacks.car", "", CHECK_FAILED),
        ("car verify wrong.car", "", CHECK_FAILED),
        ("car verify far.car", "", CHECK_FAILED),
        ("car verify --known far.car", "", DONE),
        ("car verify --json wrong.car", "", CHECK_FAILED),
        ("car verify kinds_wrong.car", "", CHECK_FAILED),
        ("car verify --known far_first.car", "", CHECK_FAILED),
        # A block and a CAR have to arrive, unlike a listing.
        (f"car extract a.car {PART.cid}", "ipld: standard output: .*\n", ERROR),
        ("car create -c raw -o - plain", "ipld: standard output: .*\n", ERROR),
        ("encode block.json", "ipld: standard output: .*\n", ERROR),
    ]
]

# Command lines with so much output that its reader can leave before the end.
LONG_OUTPUT = [
    "show long",
    "show long --json",
    "links long",
    "car list long.car",
    "car list --json long.car",
]

# A CAR from an input without an end is read as far as it is a CAR.
ENDLESS_LINES = Row(
    "car list -",
    "",
    re.compile(
        "ipld: -: not a CAR: the header is not valid DAG-CBOR: .* of the block at byte 1 "
        "\\(it looks like text\\)\n"
    ),
    CHECK_FAILED,
)
ENDLESS_ZEROS = fails("car list -", "-", "not a CAR: the header length is zero at byte 0")

# Commands whose last argument is standard output as well, as after `>> FILE`.
ONTO_INPUT = [
    "show value.cbor",
    "links value.cbor",
    "check value.cbor",
    "cid value.cbor",
    "car list a.car",
    "car missing a.car",
    "car verify a.car",
    "car inspect a.car",
    "encode value.json",
]

# Commands, and the number of their messages.
MESSAGES = [
    ("check no-such", 1),
    ("check words", 1),
    ("car list bad.car", 2),
    ("car missing bad.car", 2),
    ("car inspect bad.car", 2),
    ("car list cut.car", 1),
    ("show words no-such", 1),
]
