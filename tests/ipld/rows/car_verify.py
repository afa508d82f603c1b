"""Rows of `ipld car --verify`."""

from ..blocks import CAR, CHAIN, CUT_CHAIN, FAR, LEAF, LONG, PART
from ..formats import car
from . import CHECK_FAILED, DONE, Row, cut_payload, fails, json_lines, lines

OTHER_DIGEST = "the block has another digest"
CUT_DIGEST = "the digest is truncated to 20 bytes, which is not supported"
NOT_COMPUTED = "the hash function 0x11 is not computed here"
# The offsets of blocks in CARs below.
TRAP_AT = len(car([], [LEAF]))
FAR_AT = len(car([FAR.cid], []))
LONG_AT = len(car([LONG.cid], []))
CHAIN_AT = len(car([CHAIN.cid], []))
CUT_CHAIN_AT = len(car([CUT_CHAIN.cid], []))


def reports(command, *found, status=CHECK_FAILED):
    """Returns the row of a command that prints these lines."""
    return Row(command, lines(*found), "", status)


VALID = [
    Row("car verify a.car"),
    Row("car verify empty.car"),
    Row("car verify node.car"),
    Row("car verify sha512.car"),
    Row("car verify blake2b.car"),
]

WRONG = [
    reports("car verify wrong.car", f"{PART.cid} at byte {TRAP_AT}: {OTHER_DIGEST}"),
    reports("car verify --known wrong.car", f"{PART.cid} at byte {TRAP_AT}: {OTHER_DIGEST}"),
    reports("car verify not_sha512.car", f"{LONG.cid} at byte {LONG_AT}: {OTHER_DIGEST}"),
    reports("car verify not_blake2b.car", f"{CHAIN.cid} at byte {CHAIN_AT}: {OTHER_DIGEST}"),
    reports("car verify cut_blake2b.car", f"{CUT_CHAIN.cid} at byte {CUT_CHAIN_AT}: {CUT_DIGEST}"),
    reports("car verify far.car", f"{FAR.cid} at byte {FAR_AT}: {NOT_COMPUTED}"),
    reports(
        "car verify --known far.car", f"{FAR.cid} at byte {FAR_AT}: {NOT_COMPUTED}", status=DONE
    ),
    fails("car verify two_short.car", "two_short.car", cut_payload(len(CAR) + 100, len(CAR))),
]

TRAP_OBJECT = {"cid": PART.cid, "offset": TRAP_AT, "error": "WrongDigest"}
LONG_OBJECT = {"cid": LONG.cid, "offset": LONG_AT, "error": "WrongDigest"}
FAR_OBJECT = {"cid": FAR.cid, "offset": FAR_AT, "error": "UnknownHash", "hash": "0x11"}
AS_JSON = [
    Row("car verify --json a.car"),
    Row("car verify --json wrong.car", json_lines(TRAP_OBJECT), status=CHECK_FAILED),
    Row("car verify --json --known wrong.car", json_lines(TRAP_OBJECT), status=CHECK_FAILED),
    Row("car verify --json not_sha512.car", json_lines(LONG_OBJECT), status=CHECK_FAILED),
    Row("car verify --json far.car", json_lines(FAR_OBJECT), status=CHECK_FAILED),
    Row("car verify --json --known far.car", json_lines(FAR_OBJECT)),
]
