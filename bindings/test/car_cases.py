"""Writes random CARs, whole, cut and changed, with the results of the plain reader. A package has
to read the same.

usage: python3 car_cases.py FILE [COUNT [SEED]]

Each line of FILE is a JSON list:
- a CAR in hexadecimal
- its version and roots, or null
- for each section the CID, the block, and the offsets of the section and the block
- the name and the offset of the error at which reading ends, or null

A header has at most 8 MiB, and a section 32 MiB.
"""

import json
import struct
import sys
import types

# Only the part of random_blocks that makes CIDs is used, and not the package that it tests.
sys.modules.setdefault("kombilad", types.ModuleType("kombilad"))
import car_reader  # noqa: E402
import random_blocks  # noqa: E402
from reader import Rejected  # noqa: E402

HEADER_LIMIT, SECTION_LIMIT = 8 << 20, 32 << 20


def made(source):
    choose = source.random
    blocks = [
        (source.cid(), choose.randbytes(choose.choice([0, 1, 5, 200])))
        for _ in range(choose.choice([0, 1, 2, 5]))
    ]
    head = car_reader.header([source.cid() for _ in range(choose.choice([0, 1, 1, 2, 30]))])
    whole = (
        random_blocks.varint(len(head))
        + head
        + b"".join(
            random_blocks.varint(len(cid) + len(block)) + cid + block for cid, block in blocks
        )
    )
    if choose.random() < 0.5:
        return whole
    padding = choose.choice([0, 0, 1, 70])
    size = max(0, len(whole) + choose.choice([0, 0, 0, 0, 1, -1, 100, -len(whole)]))
    return (
        b"\x0a"
        + car_reader.PRAGMA
        + bytes(16)
        + struct.pack("<QQQ", 51 + padding, size, 0)
        + bytes(padding)
        + whole
        + choose.randbytes(choose.choice([0, 0, 9]))
    )


def read(data, header_limit=HEADER_LIMIT, section_limit=SECTION_LIMIT):
    """Returns the result of reading a CAR, one section after another."""
    head, sections = None, []
    try:
        version, at, end, roots = car_reader.opened(data, header_limit)
        head = [version, [root.hex() for root in roots]]
        while (found := car_reader.section(data, at, end, section_limit)) is not None:
            (cid, cid_len), (block, block_len), following = found
            sections.append(
                [
                    data[cid : cid + cid_len].hex(),
                    data[block : block + block_len].hex(),
                    at,
                    block,
                ]
            )
            at = following
    except Rejected as why:
        return head, sections, [why.name, why.offset]
    return head, sections, None


def main():
    count = int(sys.argv[2]) if len(sys.argv) > 2 else 10_000
    source = random_blocks.Source(int(sys.argv[3]) if len(sys.argv) > 3 else 1)
    with open(sys.argv[1], "w", encoding="utf-8") as out:
        for at in range(count):
            data = made(source)
            if at % 2:
                data = source.changed(data)
            if at % 5 == 0:
                data = data[: source.random.randrange(len(data) + 1)]
            print(json.dumps([data.hex(), *read(data)], separators=(",", ":")), file=out)


if __name__ == "__main__":
    main()
