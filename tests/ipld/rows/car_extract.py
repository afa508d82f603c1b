"""Rows of `ipld car extract` that write a block to standard output."""

import re

from ..blocks import CHAIN, FAR, LONG, LOST, NEAR, PART
from . import ERROR, NO_BLOCK, UNKNOWN_HASH, WRONG_DIGEST, Row, fails

EXTRACTED = [
    Row(f"car extract a.car {PART.cid}", "part"),
    Row(f"car extract sha512.car {LONG.cid}", "long"),
    Row(f"car extract blake2b.car {CHAIN.cid}", "chain"),
    Row(f"car extract far.car {NEAR.cid}", "near"),
]

NOT_EXTRACTED = [
    fails(f"car extract a.car {LOST.cid}", "a.car", f"{LOST.cid}: {NO_BLOCK}"),
    fails(f"car extract first.car {PART.cid}", "first.car", f"{PART.cid}: {WRONG_DIGEST}"),
    fails(f"car extract not_near.car {NEAR.cid}", "not_near.car", f"{NEAR.cid}: {WRONG_DIGEST}"),
    fails(
        f"car extract not_sha512.car {LONG.cid}", "not_sha512.car", f"{LONG.cid}: {WRONG_DIGEST}"
    ),
    fails(f"car extract far.car {FAR.cid}", "far.car", f"{FAR.cid}: {UNKNOWN_HASH}"),
    Row(
        f"car extract a.car {PART.cid} {PART.cid}",
        "",
        re.compile("error: several CIDs require --directory <DIR>, .*\n\n.*\n"),
        ERROR,
    ),
]

UNCHECKED = [
    Row(f"car extract --unchecked first.car {PART.cid}", "first"),
    Row(f"car extract --unchecked far.car {FAR.cid}", "far"),
    Row(f"car extract --unchecked not_near.car {NEAR.cid}", "far!"),
    fails(f"car extract --unchecked a.car {LOST.cid}", "a.car", f"{LOST.cid}: {NO_BLOCK}"),
]
