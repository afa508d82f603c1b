"""
Tests `CarWriter` with version 2 against an independent writer. The top of the repository is on
PYTHONPATH.
"""

import io
import random
import tempfile
import unittest

from kombilad import CarReader, CarWriter, Cid, _native
from tests.ipld import formats
from tests.ipld.formats import (
    BLAKE2B_256,
    DAG_CBOR,
    DAG_PB,
    IDENTITY,
    RAW,
    car,
    car_indexed,
    cid_of,
    hash_of,
)

LONG = bytes.fromhex("01" + "ff" * 9 + "01" + "ff" * 9 + "0140") + bytes(range(64))


def some_cid(rng, data):
    """Returns a CID of the data, or one with an unknown hash and a long digest."""
    return rng.choice(
        [
            cid_of(DAG_CBOR, data),
            cid_of(RAW, data, BLAKE2B_256),
            formats.Cid(cid_of(DAG_PB, data)[2:]),
            cid_of(RAW, data[:29], IDENTITY),
            formats.Cid(LONG),
        ]
    )


def written(file, roots, blocks):
    with CarWriter(file, [Cid(root) for root in roots], version=2) as writer:
        for cid, block in blocks:
            writer.write(Cid(cid), block)


class Indexed(unittest.TestCase):
    def test_as_an_independent_writer_writes_it(self):
        rng = random.Random(7)
        for count in [0, 1, 2, 3, 10, 100, 300]:
            for _ in range(5):
                blocks = []
                for _ in range(count):
                    data = rng.randbytes(rng.choice([0, 1, 5, 29, 300]))
                    blocks.append((some_cid(rng, data), data))
                roots = [cid for cid, _ in blocks[: rng.randrange(3)]]
                indexed = [(cid, data) for cid, data in blocks if cid[3:] != b"\0"]
                file = io.BytesIO()
                written(file, roots, blocks)
                full = len(indexed) == len(blocks)
                with self.subTest(count=count, full=full):
                    entries = [row for row in self.entries(roots, blocks) if row[1]]
                    self.assertEqual(file.getvalue(), car_indexed(roots, blocks, entries, full))
                    self.assertEqual(file.tell(), len(file.getvalue()))
                    read = CarReader(file.getvalue())
                    self.assertEqual(read.version, 2)
                    self.assertEqual([(bytes(cid), data) for cid, data in read], blocks)

    @staticmethod
    def entries(roots, blocks):
        """Returns the hash, the digest and the offset of each block in the payload."""
        rows, payload = [], len(car(roots, []))
        for cid, data in blocks:
            rows.append((*hash_of(cid), payload))
            payload += len(car(roots, [(cid, data)])) - len(car(roots, []))
        return rows

    def test_from_the_position_of_the_file_on(self):
        block = (cid_of(RAW, b"a"), b"a")
        with tempfile.TemporaryFile() as file:
            file.write(b"before")
            written(file, [], [block])
            file.write(b"behind")
            file.seek(0)
            self.assertEqual(file.read(), b"before" + car_indexed([], [block]) + b"behind")

    def test_it_is_no_car_before_its_end(self):
        file = io.BytesIO()
        with self.assertRaises(KeyError):
            with CarWriter(file, version=2) as writer:
                writer.write(Cid(cid_of(RAW, b"a")), b"a")
                raise KeyError
        self.assertEqual(file.getvalue()[:51], bytes(51))
        writer.finish()
        self.assertEqual(file.getvalue(), car_indexed([], [(cid_of(RAW, b"a"), b"a")]))
        writer.finish()
        self.assertEqual(file.getvalue(), car_indexed([], [(cid_of(RAW, b"a"), b"a")]))
        with self.assertRaisesRegex(ValueError, "the CAR is complete"):
            writer.write(Cid(cid_of(RAW, b"a")), b"a")
        # One of version 1 is complete after each block.
        with CarWriter(io.BytesIO()) as plain:
            plain.finish()
            plain.write(Cid(cid_of(RAW, b"a")), b"a")

    def test_of_70_000_blocks(self):
        rng = random.Random(8)
        blocks = [(cid_of(RAW, data), data) for data in (rng.randbytes(9) for _ in range(70_000))]
        file = io.BytesIO()
        written(file, [], blocks)
        wanted = car_indexed([], blocks, self.entries([], blocks))
        self.assertTrue(file.getvalue() == wanted)

    def test_errors(self):
        for version in [0, 3, "2", None]:
            with self.assertRaisesRegex(ValueError, "a CAR has version 1 or 2"):
                CarWriter(io.BytesIO(), version=version)
        with self.assertRaises((OSError, io.UnsupportedOperation)):
            CarWriter(Pipe(), version=2)
        for rows, length in [([(b"\x01", 0)], 0), ([(b"", 0)], 0), ([], (1 << 64) - 51)]:
            with self.assertRaises(ValueError):
                _native.car_index(rows, length)
        for rows in [[()], [(b"\x01", "0")], [(b"\x01",)]]:
            with self.assertRaises(TypeError):
                _native.car_index(rows, 0)


class Pipe(io.RawIOBase):
    """A file that can only be written."""

    def writable(self):
        return True

    def write(self, data):
        return len(data)


if __name__ == "__main__":
    unittest.main()
