"""The blocks that the files of the tests contain.

`NAME` is a block with its CID, `NAME_VALUE` the value that it encodes, and `NAME_CID` a CID whose
block is in no file.
"""

import json

from .formats import (
    BLAKE2B_256,
    DAG_CBOR,
    DAG_JSON,
    DAG_PB,
    IDENTITY,
    JSON,
    PAYLOAD_AT,
    RAW,
    SHA1,
    SHA2_512,
    Block,
    block,
    car,
    cbor,
    cid_of,
    cid_v0,
    cid_with,
    dag_cbor,
    digest_by,
    pb,
    pb_link,
    raw,
    varint,
)

EMPTY = dag_cbor({})
PART = raw(b"part")
LOST = raw(b"lost")
HELLO = raw(b"hello")
WORDS = raw(b"some\twords\r\n")
OLD_CID = cid_v0(b"old")
# The CID of the empty block contains it, because its hash function is the identity.
NOTHING = block(RAW, b"", IDENTITY)

# Each kind of value, and what `show` prints for it.
ALL_VALUE = {
    "b": 1,
    "aa": [EMPTY.cid, None, True, -5, 2**64 - 1, -(2**64)],
    "": {"x": b"\x00\xff\x10", "y": b""},
    "text": 'h"i\\\n\x07 \u00e9 \U0001f389',
    "e": {},
    "l": [],
    "old": OLD_CID,
    "floats": [1.0, -0.5, 0.1, 1e300],
}
ALL = dag_cbor(ALL_VALUE)
ALL_SHOWN = f"""{{
  "": {{
    "x": h'00ff10'
    "y": h''
  }}
  "b": 1
  "e": {{}}
  "l": []
  "aa": [
    {EMPTY.cid}
    null
    true
    -5
    18446744073709551615
    -18446744073709551616
  ]
  "old": {OLD_CID}
  "text": "h\\"i\\\\\\n\\u0007 \u00e9 \U0001f389"
  "floats": [
    1.0
    -0.5
    0.1
    1e300
  ]
}}
"""

# A node of DAG-PB, with both versions of its CID.
NODE_VALUE = {
    "Data": b"\x08\x01",
    "Links": [
        {"Hash": PART.cid, "Name": "part.txt", "Tsize": 300},
        {"Hash": OLD_CID, "Name": ""},
        {"Hash": EMPTY.cid},
    ],
}
NODE_V1 = block(
    DAG_PB,
    pb(
        [pb_link(PART.cid, b"part.txt", 300), pb_link(OLD_CID, b""), pb_link(EMPTY.cid)],
        b"\x08\x01",
    ),
)
NODE = Block(cid_v0(NODE_V1.data), NODE_V1.data)
# A node whose data are before its link.
DATA_FIRST = block(DAG_PB, pb([pb_link(PART.cid)], b"", data_first=True))

# A root with a link to a block that is in the file, one to a block that isn't, and one to a CID
# that contains a block, which links to the missing block too.
LEAF = dag_cbor(["leaf"])
INLINE = dag_cbor(LOST.cid, IDENTITY)
THROUGH = dag_cbor([INLINE.cid])
TOP = dag_cbor([LEAF.cid, LOST.cid, INLINE.cid])
# A block whose codec is not supported.
OTHER = block(JSON, b"{}")
# One whose codec has no name.
UNNAMED = block(0x300001, b"{}")
TREE = [TOP, LEAF, PART, OTHER]
CAR = car([TOP.cid], TREE)
# The offset of its last section.
LAST_AT = len(car([TOP.cid], TREE[:-1]))

# Blocks that are not valid.
CUT_CBOR = block(DAG_CBOR, b"\x82\x01")
CUT_CBOR_ERROR = "not valid DAG-CBOR: the bytes end before the item does at byte 2"
UNKNOWN_PB = block(DAG_PB, pb([]) + b"\x1a\x00")
UNKNOWN_PB_ERROR = "not valid DAG-PB: unknown field 3 of wire type 2 at byte 0"
WITH_INVALID = [CUT_CBOR, TOP, UNKNOWN_PB, LEAF]

# A block with links to CIDs that contain such blocks, after, between and before other links.
INLINE_CBOR = block(DAG_CBOR, CUT_CBOR.data, IDENTITY)
INLINE_PB = block(DAG_PB, UNKNOWN_PB.data, IDENTITY)
INLINE_BREAK = block(DAG_CBOR, b"\xff", IDENTITY)
CARRIER = dag_cbor([LEAF.cid, INLINE_CBOR.cid, LOST.cid, INLINE_PB.cid, PART.cid])
CARRIER_ROOTS = [INLINE_PB.cid, CARRIER.cid]
CARRIER_BLOCKS = [PART, CARRIER, CUT_CBOR, LEAF]

# Blocks by SHA1, which the program doesn't compute, by SHA2-512, by BLAKE2b-256, and by the identity
# function.
FAR = block(RAW, b"far", SHA1)
LONG = block(RAW, b"long", SHA2_512)
CHAIN = block(RAW, b"chain", BLAKE2B_256)
# A block whose CID has only the first bytes of its digest.
CUT_CHAIN = Block(cid_with(RAW, BLAKE2B_256, digest_by(BLAKE2B_256, b"chain")[:20]), b"chain")
NEAR = block(RAW, b"near", IDENTITY)

# A graph of blocks of several codecs, for paths.
END_VALUE = {"k": [1, {"deep": "end"}], "far": FAR.cid}
END = dag_cbor(END_VALUE)
INNER_VALUE = {"in": END.cid}
INNER = dag_cbor(INNER_VALUE, IDENTITY)
FOLDER = block(DAG_PB, pb([pb_link(END.cid, b"end"), pb_link(PART.cid, b"part")], b"\x08\x01"))
BARE = dag_cbor(END.cid)
START_VALUE = {
    "end": END.cid,
    "dir": [FOLDER.cid],
    "in": INNER.cid,
    "lost": LOST.cid,
    "bare": BARE.cid,
    "other": OTHER.cid,
    "wrong": LEAF.cid,
    "far": FAR.cid,
    "bad": CUT_CBOR.cid,
    str(PART.cid): 5,
}
START = dag_cbor(START_VALUE)
GRAPH = [START, END, FOLDER, PART, BARE, OTHER, Block(LEAF.cid, b"trap"), FAR, CUT_CBOR]
GRAPH_CAR = car([START.cid], GRAPH)

# DAG-JSON as people type it. The links are in the order of the bytes of the keys.
TYPED_VALUE = {"b": [1, -5, 1.5, LEAF.cid], "aa": {"x": b"hi", "y": PART.cid}, "a": None}
TYPED_LINKS = [PART.cid, LEAF.cid]
TYPED = block(
    DAG_JSON,
    json.dumps(
        {
            "b": [1, -5, 1.5, {"/": str(LEAF.cid)}],
            "aa": {"y": {"/": str(PART.cid)}, "x": {"/": {"bytes": "aGk"}}},
            "a": None,
        },
        indent=1,
    ).encode(),
)

# Blocks that link to each other, also with a key between them, and a block that links to itself. No
# digests allow that, so the blocks are not those of their CIDs.
ONE_CID, TWO_CID = cid_of(DAG_CBOR, b"one"), cid_of(DAG_CBOR, b"two")
CIRCLE = [Block(ONE_CID, cbor(TWO_CID)), Block(TWO_CID, cbor(ONE_CID))]
SPIRAL = [Block(ONE_CID, cbor({"a": TWO_CID})), Block(TWO_CID, cbor(ONE_CID))]
LOOP = [Block(ONE_CID, cbor([ONE_CID]))]

# A CAR with two blocks of a CID, before the block that links to it.
TO_PART = dag_cbor({"p": PART.cid})
TO_IT = dag_cbor({"b": TO_PART.cid})
TRAP = Block(PART.cid, b"trap")
TWICE = [TO_IT, PART, TRAP, TO_PART]

# A block of each hash function that is computed, and one with two CIDs. A CAR of version 2 has an
# index of them.
HASHED = [PART, LONG, NEAR, LEAF, block(JSON, b"part"), NODE]
HASHED_PAYLOAD = car([PART.cid], HASHED)
HASHED_INDEX_AT = PAYLOAD_AT + len(HASHED_PAYLOAD)

# Many blocks, and more roots than the program writes at a time.
NUMBERS = [raw(varint(number)) for number in range(200)]
MANY_CIDS = [cid_of(RAW, b"%d" % number) for number in range(2000)]

# Control characters: those that JSON escapes, DEL and those of C1, next to other characters.
CONTROLS = "\x00\x1f\x20\x7e\x7f\x80\x9f\xa0"
