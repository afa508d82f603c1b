"""Rows of `ipld cid`."""

import errno
import re

from ..blocks import ALL, EMPTY, HELLO, NEAR, NODE, NODE_V1, OLD_CID
from ..files import FILES
from ..formats import (
    BASE58,
    DAG_CBOR,
    DAG_PB,
    RAW,
    SHA2_256,
    SHA2_512,
    V0,
    bases_of,
    cid_of,
    cid_with,
    hash_of,
    in_alphabet,
)
from ..invalid import INVALID_CBOR
from . import CHECK_FAILED, ERROR, Row, fails, json_lines, lines, system_error

# The hash functions that have a name, by the table of multicodecs, and one without a name.
HASHES = {
    "identity": 0x00,
    "sha1": 0x11,
    "sha2-256": 0x12,
    "sha2-512": 0x13,
    "sha3-512": 0x14,
    "sha3-256": 0x16,
    "keccak-256": 0x1B,
    "blake3": 0x1E,
    "dbl-sha2-256": 0x56,
    "blake2b-256": 0xB220,
    "blake2s-256": 0xB260,
    "0x3421": 0x3421,
}
# The same for codecs.
CODECS = {
    "cbor": 0x51,
    "raw": 0x55,
    "dag-pb": 0x70,
    "dag-cbor": 0x71,
    "libp2p-key": 0x72,
    "git-raw": 0x78,
    "dag-jose": 0x85,
    "eth-block": 0x90,
    "bitcoin-block": 0xB0,
    "dag-json": 0x0129,
    "json": 0x0200,
    "0x300001": 0x300001,
}


def named(name, code):
    """Returns how the parts of a CID show a code."""
    return name if name.startswith("0x") else f"{name} ({code:#x})"


def as_object(cid, codec="raw", function="sha2-256", text=None):
    """Returns the object that `cid --json` prints for a CID."""
    return {
        "cid": text or str(cid),
        "version": 0 if cid.startswith(V0) else 1,
        "codec": codec,
        "hash": function,
        "digest": hash_of(cid)[1].hex(),
    }


def parts_of(cid):
    """Returns what `cid` prints for a CID of version 1 with DAG-CBOR and SHA2-256."""
    parts = {
        "cid": cid,
        "version": "1",
        "codec": "dag-cbor (0x71)",
        "hash": "sha2-256 (0x12)",
        "digest": hash_of(cid)[1].hex(),
        "bytes": cid.hex(),
        **bases_of(cid),
    }
    return lines(*(f"{label:<11} {part}" for label, part in parts.items()))


OF_FILES = [
    Row("cid value.cbor", lines(ALL.cid)),
    Row("cid --codec raw plain", lines(HELLO.cid)),
    Row("cid -c dag-pb node.pb", lines(NODE_V1.cid)),
    Row("cid value.cbor unsorted.cbor", lines(ALL.cid, cid_of(DAG_CBOR, FILES["unsorted.cbor"]))),
    Row(
        "cid value.cbor no-such cut.cbor",
        lines(ALL.cid),
        re.compile("ipld: no-such: .*\nipld: cut.cbor: not valid .*\n"),
        ERROR,
    ),
    Row("cid --json -c raw plain", json_lines({"file": "plain", **as_object(HELLO.cid)})),
]

NOT_READ = [
    fails(
        "cid .",
        ".",
        f"cannot read the file: {system_error(errno.EISDIR)}; "
        "and not a CID: unknown multibase prefix '.'",
        ERROR,
    )
]

INVALID = [fails(f"cid {it.name}", it.name, it.why + it.hint) for it in INVALID_CBOR]

PARTS = [
    Row(f"cid {text}", parts_of(EMPTY.cid))
    for text in [
        f"{EMPTY.cid}",
        f"/ipfs/{EMPTY.cid}",
        f"ipfs://{EMPTY.cid}",
        f"f{EMPTY.cid.hex()}",
        f"z{in_alphabet(EMPTY.cid, BASE58)}",
    ]
] + [Row(f"cid {OLD_CID}", re.compile(f"(?s).*\nversion     0\n.*\nbase58btc   {OLD_CID}\n.*"))]

BASES = [
    row
    for name, text in bases_of(HELLO.cid).items()
    for row in [
        Row(f"cid -c raw -b {name} plain", lines(text)),
        Row(f"cid --base {name} {HELLO.cid} /ipfs/{text}", lines(text, text)),
        Row(f"cid --json -b {name} {HELLO.cid}", json_lines(as_object(HELLO.cid, text=text))),
    ]
] + [
    # A CID that contains its block.
    Row(f"cid -b base16 {NEAR.cid}", lines(f"f{NEAR.cid.hex()}")),
    # With --text there are no files.
    Row(
        f"cid --text plain {HELLO.cid} -b base16",
        lines(f"f{HELLO.cid.hex()}"),
        re.compile("ipld: plain: not a CID: .*\n"),
        CHECK_FAILED,
    ),
]

DIGEST = bytes(range(20))
OF_HASHES = [
    row
    for name, code in HASHES.items()
    for cid in [cid_with(RAW, code, DIGEST)]
    for row in [
        Row(f"cid --json {cid}", json_lines(as_object(cid, function=name))),
        Row(
            f"cid {cid}",
            re.compile(
                f"(?s).*\nhash        {re.escape(named(name, code))}\n"
                f"digest      {DIGEST.hex()}\n.*"
            ),
        ),
    ]
]

OF_CODECS = [
    row
    for name, code in CODECS.items()
    for cid in [cid_of(code, b"")]
    for row in [
        Row(f"cid --json {cid}", json_lines(as_object(cid, codec=name))),
        Row(f"cid {cid}", re.compile(f"(?s).*\ncodec       {re.escape(named(name, code))}\n.*")),
    ]
]

NO_V0 = "no version 0 of this CID: that requires DAG-PB and SHA2-256 (use --v1)"
VERSIONS = [
    Row("cid -c dag-pb --v0 node.pb", lines(NODE.cid)),
    Row(f"cid --v0 {NODE_V1.cid} {NODE.cid}", lines(NODE.cid, NODE.cid)),
    Row(f"cid --v1 {NODE_V1.cid} {NODE.cid}", lines(NODE_V1.cid, NODE_V1.cid)),
    Row(f"cid --v0 --base base58btc {NODE_V1.cid}", lines(NODE.cid)),
    Row(f"cid --json --v0 {NODE_V1.cid}", json_lines(as_object(NODE.cid, codec="dag-pb"))),
    fails("cid --v0 value.cbor", "value.cbor", NO_V0),
    *(
        fails(f"cid --v0 {cid} {NODE.cid}", cid, NO_V0, out=lines(NODE.cid))
        for cid in [
            HELLO.cid,
            ALL.cid,
            cid_with(DAG_PB, SHA2_256, bytes(16)),
            cid_with(DAG_PB, SHA2_512, bytes(32)),
        ]
    ),
]

ONLY_BASE58 = "a CID of version 0 is always in base58btc (--v1 converts it to version 1)"
BASES_OF_V0 = [
    row
    for name, text in bases_of(NODE_V1.cid).items()
    for row in [
        Row(f"cid --v1 -b {name} {NODE.cid}", lines(text)),
        (
            Row(f"cid -b {name} {NODE.cid}", lines(NODE.cid))
            if name == "base58btc"
            else fails(f"cid -b {name} {NODE.cid}", NODE.cid, ONLY_BASE58)
        ),
    ]
]
