"""The files that the tests read, by name."""

import struct

from . import texts
from .blocks import (
    ALL,
    CAR,
    CARRIER,
    CARRIER_BLOCKS,
    CARRIER_ROOTS,
    CHAIN,
    CIRCLE,
    CONTROLS,
    CUT_CBOR,
    CUT_CHAIN,
    DATA_FIRST,
    EMPTY,
    FAR,
    GRAPH,
    GRAPH_CAR,
    HASHED,
    HELLO,
    INLINE,
    INLINE_BREAK,
    LEAF,
    LONG,
    LOOP,
    LOST,
    MANY_CIDS,
    NEAR,
    NODE,
    NOTHING,
    NUMBERS,
    ONE_CID,
    PART,
    SPIRAL,
    START,
    THROUGH,
    TOP,
    TRAP,
    TWICE,
    TYPED,
    UNNAMED,
    WITH_INVALID,
    WORDS,
)
from .formats import (
    IDENTITY,
    INDEX_FORMAT,
    SHA2_256,
    SHA2_512,
    Block,
    car,
    car_indexed,
    car_v2,
    cbor,
    entries_of,
    index_of,
    pb,
    sorted_index_of,
    varint,
)
from .invalid import CUT_JSON, INVALID_CARS, INVALID_CBOR, INVALID_JSON_BLOCKS, NOT_ENCODED

# A file name that JSON has to escape.
ODD_NAME = 'odd "name\\'
UNITS = {"K": 2**10, "M": 2**20, "G": 2**30}

VALID_BLOCKS = {
    "value.cbor": ALL.data,
    "unsorted.cbor": cbor((("b", 1), ("a", 2))),
    "named.cbor": cbor({"k": str(EMPTY.cid)}),
    "control.cbor": cbor({"k": CONTROLS, "f": [-0.0, 0.0], "x": b"\xfb\xff\xbf"}),
    "deep.cbor": b"\x81" * 42 + b"\xf6",
    "large.cbor": cbor([EMPTY.cid] * 1000),
    "top.cbor": TOP.data,
    "through.cbor": THROUGH.data,
    "leaf.cbor": LEAF.data,
    "carries.cbor": CARRIER.data,
    "block.json": TYPED.data,
    "node.pb": NODE.data,
    "first.pb": DATA_FIRST.data,
    "plain": HELLO.data,
    "lost": LOST.data,
    "words": WORDS.data,
    "named": f"{EMPTY.cid}\n".encode(),
    ODD_NAME: cbor(None),
    # Maps that DAG-JSON reserves, and one that only looks like them.
    "link.cbor": cbor({"/": "x", "z": 1}),
    "bytes.cbor": cbor({"z": {"/": {"bytes": "x"}}}),
    "slash.cbor": cbor(
        {"z": {"/": {"bytes": 1}}, "!": {"/": 5}, "y": {"/": {"": 0, "bytes": "x"}}}
    ),
}

INVALID_BLOCKS = {
    "cut.cbor": ALL.data[:-1],
    "after.cbor": ALL.data + b"\xf6",
    "half.cbor": b"\xf9\x3c\x00",
    "twice.pb": pb([], b"a") + pb([], b"b"),
    "unknown.pb": pb([]) + b"\x1a\x00",
    "no_hash.pb": pb([b"\x12\x00"]),
    **{it.name: it.data for it in INVALID_CBOR},
    **{it.name: it.data for it in INVALID_JSON_BLOCKS},
}

TEXTS = {
    "value.json": texts.KINDS,
    "typed.json": texts.BY_HAND,
    "floats.json": texts.FLOATS,
    "written.json": texts.CANONICAL_FLOATS,
    "bytes.json": b'{"/":{"bytes":"+/+/"}}',
    "float.json": b'{"a":\n 1.5}',
    "level.json": b"[" * 1024 + b"]" * 1024,
    # Texts that are not canonical.
    "long.json": b"[1.50]",
    "hundred.json": b"[1e2]",
    "unsorted.json": b'{"b":1,"a":2}',
    "line.json": b"[1]\n",
    "escape.json": b'["\\u0041"]',
    **{it.name: it.data for it in NOT_ENCODED},
}

CARS = {
    "a.car": CAR,
    "whole.car": car([LEAF.cid], [LEAF]),
    "empty.car": car([], []),
    "no_roots.car": car([], [PART]),
    "node.car": car([NODE.cid], [NODE, PART]),
    "json.car": car([TYPED.cid], [TYPED, LEAF]),
    "top.car": car([TOP.cid], [TOP]),
    "inline.car": car([INLINE.cid, INLINE.cid], [INLINE]),
    "carried.car": car([INLINE_BREAK.cid], []),
    "carries.car": car(CARRIER_ROOTS, CARRIER_BLOCKS),
    "far.car": car([FAR.cid], [FAR, NEAR]),
    "sha512.car": car([LONG.cid], [LONG]),
    "blake2b.car": car([CHAIN.cid], [CHAIN]),
    "again.car": car([TWICE[0].cid], TWICE),
    "graph.car": GRAPH_CAR,
    "circle.car": car([ONE_CID], CIRCLE),
    "spiral.car": car([ONE_CID], SPIRAL),
    "unnamed.car": car([UNNAMED.cid], [UNNAMED]),
    "loop.car": car([], LOOP),
    "nothing.car": car([NOTHING.cid], [NOTHING, PART]),
    "many_small.car": car([], NUMBERS),
    "lacks.car": car(MANY_CIDS, []),
    # A block is not that of its CID, or is not valid.
    "wrong.car": car([], [LEAF, TRAP]),
    "first.car": car([], [Block(PART.cid, b"first"), PART]),
    "not_near.car": car([NEAR.cid], [Block(NEAR.cid, b"far!")]),
    "not_sha512.car": car([LONG.cid], [Block(LONG.cid, b"lung")]),
    "not_blake2b.car": car([CHAIN.cid], [Block(CHAIN.cid, b"chair")]),
    "cut_blake2b.car": car([CUT_CHAIN.cid], [CUT_CHAIN]),
    "far_first.car": car([PART.cid], [FAR] * 2000 + [TRAP]),
    "bad.car": car([TOP.cid], WITH_INVALID),
    "bad_first.car": car([PART.cid], [CUT_CBOR] + [PART] * 2000),
    "bad_json.car": car([CUT_JSON.cid], [CUT_JSON, LEAF]),
    # The file ends too early.
    "cut.car": CAR[:-1],
    "after_cut.car": GRAPH_CAR[:-1],
    "no.car": b"\x05hello",
    **{f"long{unit}.car": car([], []) + varint(size) + b"x" for unit, size in UNITS.items()},
    **{f"over{unit}.car": car([], []) + varint(size + 1) + b"x" for unit, size in UNITS.items()},
    **{it.name: it.data for it in INVALID_CARS},
}

CARS_V2 = {
    "two.car": car_v2(CAR),
    "two_cut.car": car_v2(CAR)[:-1],
    "two_short.car": car_v2(CAR, len(CAR) + 100),
    "two_header.car": car_v2(CAR)[:60],
    "two_none.car": car_v2(CAR, 0),
    "two_within.car": car_v2(CAR, len(CAR) - 1),
    "after_short.car": car_v2(GRAPH_CAR, len(GRAPH_CAR) + 9),
    "graph2.car": car_indexed([START.cid], GRAPH),
    # The index is at an offset that no file has.
    "far_index.car": car_v2(car([PART.cid], [PART]), index_at=2**63),
}

ENTRIES = entries_of(HASHED, [PART.cid])
INDEX = index_of(ENTRIES)
INDEX_OTHER_FORMAT = 0x4401


def hashed(entries=None, full=True, index=None):
    """Returns the CAR with a block of each hash function, and an index."""
    return car_indexed([PART.cid], HASHED, entries, full, index)


def index_of_rows(width, rows, size=None):
    """Returns an index of one hash function whose rows have this width, and their size in bytes."""
    size = len(rows) if size is None else size
    return varint(INDEX_FORMAT) + struct.pack("<IQIIQ", 1, SHA2_256, 1, width, size) + rows


CARS_WITH_INDEX = {
    "kinds.car": hashed(),
    # Without the block of the identity function, as the header admits, and as it doesn't.
    "kinds_some.car": hashed([it for it in ENTRIES if it[0] != IDENTITY], full=False),
    "kinds_full.car": hashed([it for it in ENTRIES if it[0] != IDENTITY]),
    "kinds_lack.car": hashed([it for it in ENTRIES if it[0] != SHA2_512]),
    # Entries with wrong offsets.
    "kinds_wrong.car": hashed(
        [(function, digest, at + (function == SHA2_512)) for function, digest, at in ENTRIES]
    ),
    "kinds_other.car": hashed(
        [(function, digest, ENTRIES[0][2]) for function, digest, _ in ENTRIES]
    ),
    "nothing_full.car": car_indexed(
        [NOTHING.cid], [NOTHING, PART], entries_of([NOTHING, PART], [NOTHING.cid])[1:]
    ),
    # The same in the format IndexSorted.
    **{
        f"sorted_{name}.car": hashed(index=sorted_index_of(entries))
        for name, entries in [
            ("all", ENTRIES),
            ("lack", [it for it in ENTRIES if it[0] != SHA2_512]),
            ("wrong", [(it, digest, at + (it == SHA2_512)) for it, digest, at in ENTRIES]),
            ("other", [(it, digest, ENTRIES[0][2]) for it, digest, _ in ENTRIES]),
        ]
    },
    # Indexes that are not valid.
    "index_long.car": hashed(index=b"\x81\x88\x00" + INDEX[2:]),
    "index_other.car": hashed(index=varint(INDEX_OTHER_FORMAT) + INDEX[2:]),
    "index_large.car": hashed(index=varint(2**64) + bytes(4)),
    "index_format_cut.car": hashed(index=b"\x81"),
    "index_cut.car": hashed()[:-1],
    "index_none.car": hashed(index=b""),
    "index_narrow.car": hashed(index=index_of_rows(7, b"")),
    "index_wide.car": hashed(index=index_of_rows(73, b"")),
    "index_odd.car": hashed(index=index_of_rows(40, bytes(41))),
    "index_mixed.car": hashed(index=index_of_rows(9, b"b" + bytes(8) + b"a" + bytes(8))),
}

FILES = {**VALID_BLOCKS, **INVALID_BLOCKS, **TEXTS, **CARS, **CARS_V2, **CARS_WITH_INDEX}
