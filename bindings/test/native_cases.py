"""Writes random, changed and cut blocks, CIDs and texts, with the results of the native library.
The module for JavaScript has to give the same.

usage: python3 native_cases.py LIBRARY FILE [COUNT [SEED]]

Each line of FILE is a JSON list:
- the name of a call, its input in hexadecimal, and its numbers, which a path in hexadecimal follows
- the number of bytes or records of its buffer
- its results: the status, the number that it writes, the offset, and the buffer

Buffers and numbers are filled with a pattern before the call. So the comparison finds any write
that the call shouldn't make.
"""

import ctypes
import json
import sys
import types

# Only the parts of random_blocks and random_pb that make blocks are used, and not the package that
# they test.
sys.modules.setdefault("kombilad", types.ModuleType("kombilad"))
import reader  # noqa: E402
from random_blocks import BASES, random_path  # noqa: E402
from random_pb import PbSource  # noqa: E402

FILL = 0xA5
UNWRITTEN = 0x5A5A5A5A
NO_LIMIT = 0xFFFFFFFF
CID, SPAN, ENTRY = 88, 16, 16


def size(number):
    return ctypes.c_size_t(ctypes.c_size_t(-1).value if number == NO_LIMIT else number)


class Native:
    def __init__(self, path):
        self.library = ctypes.CDLL(path)
        self.has_tape = hasattr(self.library, "kombilad_tape")

    def call(self, name, data, numbers, length, width):
        """Returns the status, the number, the offset and the buffer of a call."""
        buffer = (ctypes.c_uint8 * max(1, length * width))(*[FILL] * (length * width))
        needed, offset = ctypes.c_size_t(UNWRITTEN), ctypes.c_size_t(UNWRITTEN)
        given = (ctypes.c_char_p(data), ctypes.c_size_t(len(data)))
        number, place = ctypes.byref(needed), ctypes.byref(offset)
        call = getattr(self.library, "kombilad_" + name)
        call.restype = ctypes.c_uint32
        if name == "cid_check":
            status = call(*given)
        elif name == "cid_to_text":
            status = call(
                *given, ctypes.c_uint32(numbers[0]), buffer, ctypes.c_size_t(length), number
            )
        elif name == "cid_from_text":
            status = call(*given, buffer, number)
        elif name == "cid_of_block":
            call.restype = None
            status = call(ctypes.c_uint64(numbers[0] << 32 | numbers[1]), *given, buffer) or 0
        elif name in ("block_check", "block_check_canonical"):
            status = call(*given, *map(size, numbers), place)
        elif name == "links_count":
            status = call(*given, *map(size, numbers), number, place)
        elif name == "block_at":
            path = bytes.fromhex(numbers[2])
            text = ctypes.c_char_p(path), ctypes.c_size_t(len(path))
            status = call(*given, *map(size, numbers[:2]), *text, buffer, number, place)
        else:
            status = call(
                *given, *map(size, numbers), buffer, ctypes.c_size_t(length), number, place
            )
        return [
            status,
            needed.value,
            offset.value if status != 1 else UNWRITTEN,
            bytes(buffer)[: length * width].hex(),
        ]


def lines(native, source, count):
    choose = source.random

    def line(name, data, numbers=(), length=0, width=1):
        return [
            name,
            data.hex(),
            list(numbers),
            length,
            *native.call(name, data, numbers, length, width),
        ]

    def of_block(block):
        limits = choose.choice(
            [
                (64, NO_LIMIT),
                (64, NO_LIMIT),
                (NO_LIMIT, NO_LIMIT),
                (2, NO_LIMIT),
                (64, 7),
                (0, 3),
                (3, 0),
            ]
        )
        room = choose.choice([0, 1, 2, 5, 40, 40])
        yield line("block_check", block, limits)
        yield line("block_check_canonical", block, limits)
        yield line(
            "block_canonicalize",
            block,
            limits,
            max(0, len(block) + choose.choice([-1, 0, 0, 0, 3])),
        )
        yield line("block_at", block, (*limits, path_in(block).hex()), 1, SPAN)
        yield from of_json(block, limits)
        yield line("links_count", block, limits)
        yield line("link_positions", block, limits, room, SPAN)
        if native.has_tape:
            yield line("tape", block, limits, choose.choice([0, 3, len(block), len(block)]), ENTRY)

    def path_in(block):
        try:
            return random_path(source, block, reader.read(block, kind=reader.ReadWithFloats))
        except (reader.Rejected, RecursionError):
            return choose.choice([b"", b"0/0/0", b"a", b"\xff"])

    def of_json(block, limits):
        status, needed, _, text = native.call(
            "block_to_json", block, (64, NO_LIMIT), 6 * len(block) + 64, 1
        )
        room = max(0, needed + choose.choice([-1, 0, 3])) if status == 0 else len(block)
        yield line("block_to_json", block, limits, room)
        if status == 0:
            text = bytes.fromhex(text)[:needed]
            text = choose.choice([text, source.changed(text)])
            yield line("block_of_json", text, limits, len(block) + choose.choice([-1, 0, 9]))

    def of_cid(cid):
        yield line("cid_check", cid)
        base = choose.choice(
            [0, 0, 0x41, 0x110000, *map(ord, BASES.values()), *map(ord, BASES.values())]
        )
        text = native.call("cid_to_text", cid, (base,), 174, 1)
        length = text[1] if text[0] == 0 else 59
        yield line(
            "cid_to_text", cid, (base,), choose.choice([0, 10, length - 1, length, 174, 174])
        )
        yield line("cid_of_block", cid, (choose.getrandbits(32), choose.getrandbits(32)), 1, CID)

    def of_text(text):
        yield line("cid_from_text", text, (), 1, CID)

    def text_of(cid):
        long = native.call(
            "cid_to_text", cid, (choose.choice([0, *map(ord, BASES.values())]),), 174, 1
        )
        return (
            choose.choice([b"", b"", b"/ipfs/"]) + bytes.fromhex(long[3])[: long[1]]
            if long[0] == 0
            else b"b" + cid
        )

    for block in hard():
        yield from of_block(block)
    for block in texts(choose):
        yield line("block_check", block, (64, NO_LIMIT))
    for length in (0, 1, 55, 56, 63, 64, 65, 119, 120, 1000, 100_000):
        yield line("cid_of_block", choose.randbytes(length), (0, 0x55), 1, CID)
    for number in range(count):
        source.floats = 0.3 if number % 3 == 0 else 0.0
        block = source.block(choose.choice([0, 1, 2, 3]))
        if number % 5 > 1:
            block = source.changed(block)
        if number % 11 == 0:
            block = block[: choose.randrange(len(block) + 1)]
        yield from of_block(block)
        node = source.node() if number % 4 == 0 else source.changed_node(source.node())
        yield line("pb_tape", node, (), choose.choice([0, 3, 40, 200, 200]), ENTRY)
        cid = source.cid()
        text = text_of(cid)
        if number % 2:
            cid, text = source.changed(cid), source.changed(text)
        yield from of_cid(cid)
        yield from of_text(text)


def hard():
    """Yields blocks with many levels, bytes, values, keys or links."""
    link = bytes.fromhex("d82a450001550000")
    yield b""
    yield b"\x81" * 100_000 + b"\x80"
    yield b"\x81" * 100_000
    yield b"\x7a" + (70_000).to_bytes(4, "big") + b"a" * 70_000
    yield b"\x7a" + (70_002).to_bytes(4, "big") + b"a" * 70_000 + "ö".encode()
    yield b"\x7a" + (70_001).to_bytes(4, "big") + b"a" * 70_000 + b"\xff"
    yield b"\x5a" + (300_000).to_bytes(4, "big") + b"\0" * 300_000
    yield b"\x99\x27\x10" + b"\x1b\xff\xff\xff\xff\xff\xff\xff\xff\x3b\xff\xff\xff\xff\xff\xff\xff\xff" * 5_000
    yield b"\xb9\x0f\xa0" + b"".join(b"\x64" + b"%04d" % at + link for at in range(4_000))
    yield b"\xb9\x0f\xa0" + b"".join(
        b"\x64" + b"%04d" % (at * 7 % 4_000) + b"\xf6" for at in range(4_000)
    )
    yield b"\xb9\x0f\xa1" + b"".join(
        b"\x64" + b"%04d" % at + b"\xf6" for at in range(4_000)
    ) + b"\x642000\xf6"
    yield b"\x99\x75\x30" + link * 30_000


def texts(choose):
    """
    Yields blocks that are strings of 64 bytes or more, which the library checks by vectors. They
    have characters of each length, and in most of them a byte is changed.
    """
    characters = [
        "a",
        "z",
        "\x7f",
        "\x80",
        "é",
        "\u07ff",
        "\u0800",
        "東",
        "\ud7ff",
        "\ue000",
        "\uffff",
        "\U00010000",
        "\U0010ffff",
    ]
    for number in range(1000):
        weights = [choose.choice([0, 1, 20]) for _ in characters]
        text = "".join(
            choose.choices(
                characters, weights if any(weights) else None, k=choose.randrange(64, 200)
            )
        ).encode()
        if number % 4:
            changed = bytearray(text)
            changed[
                choose.choice([choose.randrange(len(text)), -1 - choose.randrange(4)])
            ] = choose.choice(
                [
                    0x20,
                    0x7F,
                    0x80,
                    0x8F,
                    0x90,
                    0x9F,
                    0xA0,
                    0xBF,
                    0xC0,
                    0xC2,
                    0xE0,
                    0xED,
                    0xF0,
                    0xF4,
                    0xF5,
                    0xFF,
                ]
            )
            text = bytes(changed)
        yield b"\x79" + len(text).to_bytes(2, "big") + text if len(text) > 255 else b"\x78" + bytes(
            [len(text)]
        ) + text


def main():
    path, file = sys.argv[1:3]
    count = int(sys.argv[3]) if len(sys.argv) > 3 else 20_000
    seed = int(sys.argv[4]) if len(sys.argv) > 4 else 1
    written = 0
    with open(file, "w", encoding="utf-8") as out:
        for line in lines(Native(path), PbSource(seed), count):
            print(json.dumps(line, separators=(",", ":")), file=out)
            written += 1
    print(f"native_cases: {count} blocks, CIDs and texts of seed {seed}, {written} calls")


if __name__ == "__main__":
    main()
