"""
Tests CAR files from Python: compared with a plain reader, cut and changed at every byte, from files
that return few bytes at a time, and verified.
"""

import asyncio
import hashlib
import io
import random
import tempfile
import unittest

import kombilad
import reader
from kombilad import AsyncCarReader, CarReader, Cid, Status, libipld


def varint(number):
    encoded = bytearray()
    while number > 127:
        encoded.append(number & 127 | 128)
        number >>= 7
    return bytes(encoded) + bytes([number])


def cid_of(block, codec=0x71):
    return b"\x01" + bytes([codec, 0x12, 32]) + hashlib.sha256(block).digest()


def framed(*parts):
    content = b"".join(parts)
    return varint(len(content)) + content


def header(roots):
    links = b"".join(b"\xd8\x2a\x58" + bytes([len(cid) + 1]) + b"\0" + cid for cid in roots)
    return framed(
        b"\xa2\x65roots"
        + kombilad.encode_dag_cbor([0] * len(roots))[: 1 if len(roots) < 24 else 2]
        + links
        + b"\x67version\x01"
    )


def version1(roots, blocks):
    return header(roots) + b"".join(framed(cid, block) for cid, block in blocks)


def version2(payload, before=0, index=b"", size=None):
    begin = 51 + before
    numbers = begin, len(payload) if size is None else size, begin + len(payload) if index else 0
    pragma = b"\x0a\xa1\x67version\x02"
    return (
        pragma
        + bytes(16)
        + b"".join(number.to_bytes(8, "little") for number in numbers)
        + bytes(before)
        + payload
        + index
    )


VALUES = [{"a": 1, "link": Cid(cid_of(b"\xf6"))}, None, ["text", b"bytes", 1.5], "x" * 300]
BLOCKS = [(cid_of(block), block) for block in map(kombilad.encode_dag_cbor, VALUES)]
RAW = (cid_of(b"raw bytes", 0x55), b"raw bytes")
IDENTITY = (b"\x01\x55\0\x02hi", b"hi")
VERSION_0 = (b"\x12\x20" + hashlib.sha256(b"\x0a\0").digest(), b"\x0a\0")
SECTIONS = BLOCKS + [RAW, IDENTITY, VERSION_0]
ROOTS = [BLOCKS[0][0], RAW[0]]
CAR = version1(ROOTS, SECTIONS)
DECODED = {
    Cid(cid): value for (cid, _), value in zip(SECTIONS, VALUES + [b"raw bytes", b"hi", b"\x0a\0"])
}


class Trickle(io.RawIOBase):
    """A file that returns few bytes at a time."""

    def __init__(self, data):
        self.data, self.at = data, 0

    def readable(self):
        return True

    def readinto(self, buffer):
        given = self.data[self.at : self.at + min(len(buffer), 1 + self.at % 7)]
        self.at += len(given)
        buffer[: len(given)] = given
        return len(given)


class StaysOpen(Trickle):
    """A file that must not be read after its last byte, since a pipe that stays open would
    block."""

    def readinto(self, buffer):
        assert self.at < len(self.data), "read on"
        given = super().readinto(buffer)
        return given


def sections(source, **options):
    car = CarReader(source, **options)
    return (
        car.version,
        [bytes(root) for root in car.roots],
        [(bytes(cid), block) for cid, block in car],
    )


async def chunks_of(data, size):
    """Yields the bytes in chunks, and an empty one first."""
    yield b""
    for at in range(0, len(data), size):
        yield data[at : at + size]


def sections_of_chunks(data, size=7, **options):
    """Returns what `sections` returns, by an asynchronous reader of chunks."""

    async def read():
        car = await AsyncCarReader.open(chunks_of(data, size), **options)
        found = [(bytes(cid), block) async for cid, block in car]
        return car.version, [bytes(root) for root in car.roots], found

    return asyncio.run(read())


def outcome(call, *arguments, **named):
    try:
        return call(*arguments, **named)
    except kombilad.KombiladError as error:
        return (error.name, error.offset)


def plainly(car):
    """Returns the sections of a CAR of version 1 whose header isn't cut, or the name of an
    error."""
    at, found = len(header(ROOTS)), []
    while at < len(car):
        try:
            length, begin = reader.varint(car, at)
        except reader.Rejected as why:
            return {
                "END": "CAR_UNEXPECTED_END",
                "NOT_SHORTEST": "CAR_LENGTH_NOT_SHORTEST",
                "VARINT_TOO_LARGE": "CAR_LENGTH_TOO_LARGE",
            }[why.name]
        if length == 0:
            return "CAR_EMPTY"
        if len(car) - begin < length:
            return "CAR_UNEXPECTED_END"
        section = car[begin : begin + length]
        for end in range(1, length + 1):
            try:
                reader.cid_parts(section[:end])
                break
            except reader.Rejected as why:
                if why.name != "END" or end == length:
                    return "CID_" + why.name
        found.append((section[:end], section[end:]))
        at = begin + length
    return found


class Cars(unittest.TestCase):
    def test_all_of_one(self):
        self.assertEqual(
            kombilad.decode_car(CAR),
            ({"version": 1, "roots": [Cid(root) for root in ROOTS]}, DECODED),
        )
        self.assertEqual(kombilad.decode_car(bytearray(CAR), verify=True)[1], DECODED)
        roots, blocks = kombilad.decode_car(CAR, cids=str)
        self.assertEqual(
            (roots["roots"], list(blocks)),
            ([str(Cid(root)) for root in ROOTS], [str(Cid(cid)) for cid, _ in SECTIONS]),
        )
        self.assertEqual(blocks[str(Cid(BLOCKS[0][0]))]["link"], str(Cid(cid_of(b"\xf6"))))
        roots, blocks = libipld.decode_car(CAR)
        self.assertEqual(
            (roots, list(blocks)), ({"version": 1, "roots": ROOTS}, [cid for cid, _ in SECTIONS])
        )
        for count in (0, 1, 8, 9, 23, 40):
            many = [cid_of(bytes([number])) for number in range(count)]
            self.assertEqual(
                kombilad.decode_car(version1(many, []), cids=bytes),
                ({"version": 1, "roots": many}, {}),
            )
            self.assertEqual(sections(version1(many, [])), (1, many, []))

    def test_one_section_after_another(self):
        whole = (1, ROOTS, SECTIONS)
        for source in (
            CAR,
            bytearray(CAR),
            io.BytesIO(CAR),
            Trickle(CAR),
            io.BufferedReader(Trickle(CAR)),
        ):
            self.assertEqual(sections(source), whole)
        self.assertEqual(sections(CAR, verify=True), whole)
        large = [
            (cid_of(block, 0x55), block)
            for block in (bytes([number]) * 100_000 for number in range(40))
        ]
        with tempfile.TemporaryFile() as file:
            file.write(version1(ROOTS, large))
            file.seek(0)
            car = CarReader(file, verify=True)
            for number, (cid, block) in enumerate(car):
                self.assertEqual((bytes(cid), block), large[number])
                self.assertLess(len(car._window), 400_000)
            self.assertEqual(number, 39)

    def test_a_block_arrives_with_its_last_byte(self):
        for car in (CAR, version2(CAR, 10)):
            for source in (StaysOpen(car), io.BufferedReader(StaysOpen(car))):
                found = CarReader(source)
                self.assertEqual([bytes(root) for root in found.roots], ROOTS)
                for section in SECTIONS:
                    cid, block = next(found)
                    self.assertEqual((bytes(cid), block), section)

    def test_an_asynchronous_source_is_read_alike(self):
        choose = random.Random(2)
        for _ in range(200):
            car = bytearray(choose.choice([CAR, version2(CAR, 10, b"index")]))
            for _ in range(choose.randrange(3)):
                car[choose.randrange(len(car))] ^= 1 << choose.randrange(8)
            car = bytes(car[: choose.choice([len(car), choose.randrange(len(car) + 1)])])
            for options in ({}, {"verify": True}, {"header_limit": 200, "section_limit": 60}):
                size = choose.choice([1, 7, 1000])
                self.assertEqual(
                    outcome(sections_of_chunks, car, size, **options),
                    outcome(sections, car, **options),
                    car.hex(),
                )

    def test_an_asynchronous_block_arrives_with_its_last_byte(self):
        async def read(car):
            stream = asyncio.StreamReader()
            stream.feed_data(car)
            found = await AsyncCarReader.open(stream)
            self.assertEqual([bytes(root) for root in found.roots], ROOTS)
            for section in SECTIONS:
                cid, block = await asyncio.wait_for(found.__anext__(), 10)
                self.assertEqual((bytes(cid), block), section)
            with self.assertRaises(asyncio.TimeoutError):
                await asyncio.wait_for(found.__anext__(), 0.01)
            self.assertEqual([section async for section in found], [])

        asyncio.run(read(CAR))

    def test_version_2(self):
        for before, index in ((0, b""), (5, b"index"), (70_000, b"index"), (3_000_000, b"")):
            car = version2(CAR, before, index)
            self.assertEqual(
                kombilad.decode_car(car),
                ({"version": 2, "roots": [Cid(root) for root in ROOTS]}, DECODED),
            )
            for source in (car, io.BytesIO(car)):
                self.assertEqual(sections(source), (2, ROOTS, SECTIONS))
        short = len(CAR) - len(framed(*VERSION_0))
        self.assertEqual(sections(version2(CAR, size=short)), (2, ROOTS, SECTIONS[:-1]))
        for size in (short + 1, len(CAR) - 1):
            passed = version2(CAR, 7, b"an index", size)
            for call in (kombilad.decode_car, sections):
                self.assertEqual(outcome(call, passed), ("CAR_UNEXPECTED_END", 51 + 7 + size))
        huge = version2(header([]) + varint(1 << 50), size=1 << 40)
        self.assertEqual(outcome(sections, huge), ("CAR_TOO_LONG", 51 + len(header([]))))
        padded = version2(CAR, 17 << 20)
        self.assertEqual(outcome(sections, padded), ("CAR_TOO_LONG", 27))
        self.assertEqual(sections(padded, header_limit=9 << 20), (2, ROOTS, SECTIONS))
        self.assertEqual(
            outcome(sections, version2(CAR, size=len(CAR) + 1))[0], "CAR_SHORT_PAYLOAD"
        )
        self.assertEqual(outcome(sections, version2(CAR)[:-1])[0], "CAR_SHORT_PAYLOAD")

    def test_a_cut_is_an_error_but_between_sections(self):
        ends = [len(version1(ROOTS, SECTIONS[:count])) for count in range(len(SECTIONS) + 1)]
        for length in range(len(CAR)):
            cut = CAR[:length]
            expected = ("CAR_UNEXPECTED_END", length)
            if length in ends:
                self.assertEqual(sections(cut), (1, ROOTS, SECTIONS[: ends.index(length)]))
                continue
            self.assertEqual(outcome(kombilad.decode_car, cut)[0], "CAR_UNEXPECTED_END", length)
            self.assertEqual(outcome(sections, cut), outcome(kombilad.decode_car, cut), length)
            self.assertEqual(outcome(kombilad.decode_car, cut), expected)

    def test_changed_bytes_are_read_as_a_plain_reader_reads_them(self):
        choose = random.Random(1)
        for _ in range(3000):
            car = bytearray(CAR)
            for _ in range(choose.choice([1, 1, 2])):
                at = choose.randrange(len(header(ROOTS)), len(CAR))
                car[at] = choose.choice(
                    [0, 1, 0x12, 0x20, 0x55, 0x7F, 0x80, 0xFF, car[at] ^ 1 << choose.randrange(8)]
                )
            expected, ours = plainly(bytes(car)), outcome(
                sections, bytes(car), section_limit=1 << 64
            )
            self.assertEqual(ours[2] if len(ours) == 3 else ours[0], expected, car.hex())
            again = outcome(sections, Trickle(bytes(car)), section_limit=1 << 64)
            self.assertEqual(again, ours)

    def test_errors_have_names_and_offsets(self):
        begin = len(header(ROOTS))
        rows = [
            ("CAR_UNEXPECTED_END", 0, b""),
            ("CAR_EMPTY", 0, b"\0"),
            ("CAR_LENGTH_NOT_SHORTEST", 1, b"\x80\0"),
            ("CAR_LENGTH_TOO_LARGE", 9, b"\xff" * 11),
            ("CAR_NOT_A_HEADER", 1, b"\x01\x01"),
            ("CAR_TOO_LONG", 0, varint(1 << 40)),
            ("CAR_EMPTY", begin, header(ROOTS) + b"\0"),
            ("CAR_LENGTH_NOT_SHORTEST", begin + 1, header(ROOTS) + b"\x81\0"),
            ("CID_EXPLICIT_VERSION_0", begin + 1, header(ROOTS) + b"\x01\0"),
        ]
        for name, offset, car in rows:
            for call in (kombilad.decode_car, sections):
                self.assertEqual(outcome(call, car), (name, offset), car)
        with self.assertRaises(kombilad.BlockError) as raised:
            kombilad.decode_car(version1([], [(BLOCKS[0][0], b"\x81")]))
        self.assertEqual(
            (raised.exception.name, raised.exception.offset),
            ("BLOCK_END", len(header([])) + 1 + 36 + 1),
        )
        deep = version1([], [(cid_of(b"\x81\x80"), b"\x81\x80")])
        self.assertEqual(outcome(kombilad.decode_car, deep, levels=1)[0], "TOO_DEEP")
        self.assertEqual(outcome(kombilad.decode_car, deep, values=1)[0], "TOO_MANY")
        ended = CarReader(CAR[:-1])
        self.assertRaises(kombilad.CarError, list, ended)
        self.assertEqual(list(ended), [])

    def test_sections_and_headers_have_a_limit(self):
        large = version1([], [(cid_of(bytes(5000), 0x55), bytes(5000))])
        self.assertEqual(
            outcome(sections, large, section_limit=5000), ("CAR_TOO_LONG", len(header([])))
        )
        self.assertEqual(len(sections(large, section_limit=5100)[2]), 1)
        endless = header([]) + varint(1 << 50)
        self.assertEqual(outcome(sections, io.BytesIO(endless))[0], "CAR_TOO_LONG")
        self.assertEqual(outcome(sections, CAR, header_limit=10)[0], "CAR_TOO_LONG")

    def test_blocks_are_verified(self):
        wrong = version1([], [(cid_of(b"\x01"), b"\x02")])
        unknown = version1([], [(b"\x01\x55\x11\x02hi", b"hi")])
        for car, name in ((wrong, "WRONG_DIGEST"), (unknown, "UNKNOWN_HASH")):
            for call in (kombilad.decode_car, sections):
                self.assertEqual(outcome(call, car, verify=True)[0], name)
                self.assertIsInstance(call(car), tuple)
        for cid, block in SECTIONS:
            self.assertIsNone(kombilad.verify(Cid(cid), block))
            self.assertIsNone(kombilad.verify(Cid(cid), bytearray(block)))
            with self.assertRaises(kombilad.VerifyError) as raised:
                kombilad.verify(Cid(cid), block + b"\0")
            self.assertEqual(
                (raised.exception.status, raised.exception.offset), (Status.WRONG_DIGEST, None)
            )
        large = bytes(1_000_000)
        kombilad.verify(Cid.of_block(large), large)


if __name__ == "__main__":
    unittest.main()
