"""
Tests what the docstrings of the Python package don't show: bytes-like objects, comparing, pickling,
threads and failures.
"""

import array
import concurrent.futures
import copy
import gc
import mmap
import pickle
import struct
import sys
import tempfile
import unittest

import kombilad
import kombilad.libipld
from kombilad import Cid, _native

EMPTY_MAP = Cid("bafyreigbtj4x7ip5legnfznufuopl4sg4knzc2cof6duas4b3q2fy6swua")
SHORT = Cid("bafkqaaa")
BLOCK = bytes.fromhex("82d82a450001550000d82a450001550000")


class Bytes(unittest.TestCase):
    def test_any_object_with_bytes_is_a_block(self):
        with tempfile.TemporaryFile() as file:
            file.write(BLOCK)
            file.flush()
            with mmap.mmap(file.fileno(), 0, access=mmap.ACCESS_READ) as mapped:
                for block in (
                    BLOCK,
                    bytearray(BLOCK),
                    memoryview(BLOCK),
                    memoryview(bytearray(b"__" + BLOCK))[2:],
                    array.array("B", BLOCK),
                    mapped,
                ):
                    self.assertEqual(kombilad.links(block), [SHORT, SHORT])
                    self.assertEqual(kombilad.count_links(block), 2)
                    self.assertEqual(kombilad.link_positions(block), [(5, 4), (13, 4)])
                    self.assertIsNone(kombilad.check(block))
                    self.assertEqual(kombilad.canonicalize(block), BLOCK)
                    self.assertTrue(kombilad.is_canonical(block))
                    self.assertEqual(kombilad.from_json(kombilad.to_json(block)), BLOCK)
                    self.assertEqual(Cid.of_block(block), Cid.of_block(BLOCK))
                self.assertEqual(Cid(bytearray(bytes(SHORT))), SHORT)

    def test_other_objects_are_none(self):
        for wrong in ("text", 7, None, [0x80], memoryview(BLOCK)[::2]):
            for call in (
                kombilad.check,
                kombilad.links,
                kombilad.count_links,
                kombilad.link_positions,
                kombilad.canonicalize,
                kombilad.is_canonical,
                kombilad.to_json,
                lambda block: kombilad.get(block, ""),
                Cid.of_block,
            ):
                self.assertRaises((TypeError, BufferError), call, wrong)
        self.assertRaises(TypeError, Cid, 7)

    def test_a_block_is_free_afterwards(self):
        block = bytearray(b"\x81")
        self.assertRaises(kombilad.BlockError, kombilad.links, block)
        block.extend(b"\x80")  # it can't grow while the library uses its buffer
        kombilad.check(block)
        before = sys.getrefcount(block)
        for _ in range(100):
            kombilad.links(block)
        gc.collect()
        self.assertEqual(sys.getrefcount(block), before)


class Cids(unittest.TestCase):
    def test_they_compare_and_hash(self):
        v0, v1 = Cid("QmdfTbBqBPQ7VNxZEYEj14VmRuZBkqFbiwReogJgS1zR1n"), Cid(
            "bafybeihdwdcefgh4dqkjv67uzcmw7ojee6xedzdetojuzjevtenxquvyku"
        )
        self.assertEqual(v0.digest, v1.digest)
        self.assertEqual(sorted([EMPTY_MAP, v1, v0, SHORT]), [v0, SHORT, v1, EMPTY_MAP])
        self.assertTrue(v0 < v1 <= v1 and v1 > v0 and v1 >= v1 and v0 != v1)
        self.assertEqual(len({v0, v1, Cid(str(v0))}), 2)
        self.assertNotEqual(SHORT, bytes(SHORT))
        self.assertNotEqual(SHORT, str(SHORT))
        self.assertRaises(TypeError, lambda: SHORT < bytes(SHORT))

    def test_they_are_values(self):
        self.assertEqual(pickle.loads(pickle.dumps(EMPTY_MAP)), EMPTY_MAP)
        self.assertEqual(copy.deepcopy([EMPTY_MAP]), [EMPTY_MAP])
        self.assertEqual(eval(repr(EMPTY_MAP)), EMPTY_MAP)
        self.assertEqual(Cid(EMPTY_MAP), EMPTY_MAP)
        self.assertEqual(f"{SHORT} {SHORT:base16}", "bafkqaaa f01550000")
        self.assertRaises(kombilad.BaseError, format, SHORT, ">20")
        self.assertRaises(AttributeError, setattr, EMPTY_MAP, "version", 0)
        self.assertRaises(OverflowError, Cid.of_block, b"", codec=1 << 64)
        self.assertEqual(Cid.of_block(b"", codec=(1 << 64) - 1).codec, (1 << 64) - 1)

    def test_they_sort_as_their_parts_do(self):
        def varint(number):
            low = [number >> 7 * at & 127 for at in range((max(number.bit_length(), 1) + 6) // 7)]
            return bytes([it | 128 for it in low[:-1]] + low[-1:])

        def v1(codec, code, digest):
            return b"\x01" + varint(codec) + varint(code) + varint(len(digest)) + digest

        parts = [
            (1, codec, code, len(digest), digest)
            for codec in (0, 0x55, 0x71, 300, 1 << 63)
            for code in (0, 0x12, 0x1000)
            for digest in (b"", b"\x00", b"\xff", b"\x00\x01", b"\x7f" * 64, b"\x80" * 64)
        ]
        cids = {Cid(v1(*part[1:3], part[4])): part for part in parts}
        cids[Cid(b"\x12\x20" + bytes(32))] = (0, 0x70, 0x12, 32, bytes(32))
        self.assertEqual([cids[cid] for cid in sorted(cids)], sorted(cids.values()))
        for cid, part in cids.items():
            self.assertEqual(
                (cid.version, cid.codec, cid.hash_code, len(cid.digest), cid.digest), part
            )
        first, last = min(cids), max(cids)
        self.assertTrue(first < last and first <= last and last > first and last >= first)
        self.assertTrue(first <= first and first >= first and not first < first)
        for other in (bytes(first), str(first), 1, None):
            self.assertFalse(first == other)
            with self.assertRaises(TypeError):
                first < other

    def test_a_subclass_makes_its_own(self):
        class Named(Cid):
            pass

        named, cid = Named("bafkqaaa"), Cid("bafkqaaa")
        self.assertIs(type(named), Named)
        self.assertIs(type(Named(bytes(cid))), Named)
        self.assertIs(type(Named.of_block(b"\xa0")), Named)
        self.assertIs(type(Named(cid)), Named)
        self.assertIs(type(Cid(named)), Cid)
        self.assertEqual((named, hash(named)), (cid, hash(cid)))
        self.assertFalse(named < cid or named > cid)

    def test_errors_say_what_and_where(self):
        for text, name, place in (
            ("", "TEXT_UNKNOWN_BASE", None),
            ("bafkqäaa", "TEXT_INVALID_LETTER", 5),
            ("/ipfs/bafkqaa1", "TEXT_INVALID_LETTER", 13),
            ("b\udc80", "TEXT_UTF8", None),
        ):
            with self.assertRaises(kombilad.TextError) as raised:
                Cid(text)
            self.assertEqual((raised.exception.name, raised.exception.place), (name, place))
        with self.assertRaises(kombilad.BaseError) as raised:
            Cid("QmdfTbBqBPQ7VNxZEYEj14VmRuZBkqFbiwReogJgS1zR1n").to_text("base32")
        self.assertEqual(raised.exception.status, kombilad.Status.V0_BASE)
        self.assertTrue(issubclass(kombilad.KombiladError, ValueError))

    def test_errors_come_from_other_processes(self):
        calls = [
            (Cid, b""),
            (Cid, "bafkqaa1"),
            (SHORT.to_text, "base2"),
            (kombilad.check, b"\x81"),
            (lambda block: kombilad.check(block, levels=0), b"\x80"),
            (kombilad.CarReader, b"\x01"),
            (lambda block: kombilad.verify(EMPTY_MAP, block), b"other"),
            (kombilad.encode_dag_cbor, {7: 7}),
            (kombilad.encode_dag_cbor, lambda: 7),
            (kombilad.libipld.decode_multibase, "!"),
        ]
        for call, given in calls:
            with self.assertRaises(ValueError) as raised:
                call(given)
            error = raised.exception
            for same in (pickle.loads(pickle.dumps(error)), copy.copy(error)):
                self.assertIs(type(same), type(error))
                self.assertEqual((str(same), same.__dict__), (str(error), error.__dict__))


class Blocks(unittest.TestCase):
    def test_many_links_are_found(self):
        link = b"\xd8\x2a\x45\0" + bytes(SHORT)
        block = b"\x99\x27\x10" + link * 10_000
        self.assertEqual(kombilad.links(block), [SHORT] * 10_000)

    def test_limits(self):
        deep = b"\x81" * 5 + b"\x80"
        for call in (
            kombilad.check,
            kombilad.links,
            kombilad.link_positions,
            kombilad.count_links,
            kombilad.canonicalize,
            kombilad.is_canonical,
            kombilad.to_json,
            lambda block, **limits: kombilad.get(block, "0/0", **limits),
        ):
            call(deep, levels=6, values=6)
            call(deep, levels=1 << 70, values=1 << 70)
            for limits, name, offset in (
                ({"levels": 5}, "TOO_DEEP", 5),
                ({"values": 5}, "TOO_MANY", 5),
                ({"levels": -1}, "TOO_DEEP", 0),
            ):
                with self.assertRaises(kombilad.LimitError) as raised:
                    call(deep, **limits)
                self.assertEqual((raised.exception.name, raised.exception.offset), (name, offset))

    def test_floats(self):
        block = b"\x82\xfb" + struct.pack(">d", 1.5) + b"\xd8\x2a\x45\0" + bytes(SHORT)
        self.assertEqual(kombilad.links(block), [SHORT])
        self.assertTrue(kombilad.is_canonical(block))
        self.assertEqual(kombilad.canonicalize(block), block)
        one, zero = b"\xfb" + struct.pack(">d", 1.5), b"\xfb" + struct.pack(">d", -0.0)
        self.assertEqual(
            kombilad.canonicalize(b"\xa2\x61b" + zero + b"\x61a" + one),
            b"\xa2\x61a" + one + b"\x61b" + zero,
        )
        for call, wrong in (
            (kombilad.canonicalize, b"\x81\xfb" + struct.pack(">d", float("inf"))),
            (kombilad.check, b"\x81\xfb" + struct.pack(">d", float("nan"))),
            (kombilad.check, b"\x81\xfa\0\0\0\0"),
        ):
            with self.assertRaises(kombilad.BlockError) as raised:
                call(wrong)
            self.assertEqual((raised.exception.name, raised.exception.offset), ("BLOCK_FLOAT", 1))

    def test_json(self):
        for text, block in (
            ("null", "f6"),
            ("18446744073709551615", "1bffffffffffffffff"),
            ("-0.0", "fb8000000000000000"),
            ('"\\"é\\u001f"', "6422c3a91f"),
            ('{"/":{"bytes":"aGk"}}', "426869"),
            ('[{"/":"bafkqaaa"},[],{}]', "83d82a45000155000080a0"),
            ('{"aa":1,"b":{"/":2}}', "a26162a1612f0262616101"),
        ):
            self.assertEqual(kombilad.to_json(bytes.fromhex(block)), text)
            for given in (text, text.encode(), memoryview(b" " + text.encode() + b"\n")):
                self.assertEqual(kombilad.from_json(given).hex(), block)
        long = '"' + "é" * 100_000 + '"'
        self.assertEqual(kombilad.to_json(kombilad.from_json(long)), long)
        floats = "[" + "1.5," * 9999 + "1.5]"
        self.assertEqual(len(kombilad.from_json(floats)), 90_003)
        escaped = b"\x7a" + (100_000).to_bytes(4, "big") + b"\x01" * 100_000
        self.assertEqual(kombilad.to_json(escaped), '"' + "\\u0001" * 100_000 + '"')
        for given, name, offset in (
            (b'"\xff"', "JSON_UTF8", 1),
            ('"\ud800"', "JSON_UTF8", 1),
            ("[1,]", "JSON_SYNTAX", 3),
            ("", "JSON_END", 0),
            ("1e400", "JSON_FLOAT", 0),
            (" 18446744073709551616", "JSON_INTEGER_RANGE", 1),
            ('{"é":1,"\\u00e9":2}', "JSON_DUPLICATE_KEY", 8),
            ('{"/":"bafkqaa"}', "JSON_LINK", 14),
            ('{"/":{"bytes":"="}}', "JSON_BYTES", 18),
            ('{"/":"bafkqaaa","0":1}', "JSON_RESERVED", 21),
        ):
            with self.assertRaises(kombilad.JsonError) as raised:
                kombilad.from_json(given)
            self.assertEqual((raised.exception.name, raised.exception.offset), (name, offset))
        with self.assertRaises(kombilad.JsonError) as raised:
            kombilad.to_json(bytes.fromhex("8200a1612fa16562797465736161"))
        self.assertEqual((raised.exception.name, raised.exception.offset), ("JSON_RESERVED_MAP", 2))
        for limits, name, offset in (
            ({"levels": 1}, "TOO_DEEP", 1),
            ({"levels": -1}, "TOO_DEEP", 0),
            ({"values": 2}, "TOO_MANY", 6),
        ):
            with self.assertRaises(kombilad.LimitError) as raised:
                kombilad.from_json('[{"/":"bafkqaaa"}]', **limits)
            self.assertEqual((raised.exception.name, raised.exception.offset), (name, offset))
        for wrong in (7, None, [0x80], memoryview(BLOCK)[::2]):
            self.assertRaises((TypeError, BufferError), kombilad.from_json, wrong)

    def test_paths(self):
        value = {"a": [1, {"b": "cd", "é": [SHORT]}], "l": SHORT, "0": {"1": None}}
        block = kombilad.encode_dag_cbor(value)
        for path, found, rest in (
            ("", value, ""),
            ("//", value, ""),
            ("a", value["a"], ""),
            ("a/+0", 1, ""),
            ("/a//1/b/", "cd", ""),
            ("a/01/é", [SHORT], ""),
            ("0/1", None, ""),
            ("l/", SHORT, ""),
            ("l//x/é/", SHORT, "x/é/"),
            ("a/1/é/0/é", SHORT, "é"),
        ):
            for given in (block, bytearray(block), memoryview(b"_" + block)[1:]):
                self.assertEqual(kombilad.get(given, path), (found, rest))
        self.assertEqual(kombilad.get(block, "l/x", cids=bytes), (bytes(SHORT), "x"))
        self.assertEqual(kombilad.get(block, "a/1/é", cids=str), (["bafkqaaa"], ""))
        for path, name, segment in (
            ("b", "PATH_MISSING", 1),
            ("a/2/x", "PATH_MISSING", 2),
            ("a//-1", "PATH_MISSING", 2),
            ("a/18446744073709551616", "PATH_MISSING", 2),
            ("a/1/e\u0301", "PATH_MISSING", 3),
            ("a/0/0", "PATH_NOT_A_CONTAINER", 3),
            ("0/1/x/y", "PATH_NOT_A_CONTAINER", 3),
        ):
            with self.assertRaises(kombilad.PathError) as raised:
                kombilad.get(block, path)
            error = raised.exception
            self.assertEqual((error.name, error.place, error.offset), (name, segment, None))
            self.assertIsInstance(error, LookupError)
            self.assertEqual(str(pickle.loads(pickle.dumps(error))), str(error))
        with self.assertRaises(kombilad.TextError) as raised:
            kombilad.get(block, "a/\ud800")
        self.assertEqual(raised.exception.name, "TEXT_UTF8")
        self.assertEqual(kombilad.get(block, "l/\0")[1], "\0")
        for wrong in (b"a", 7, None, ["a"]):
            self.assertRaises((TypeError, AttributeError), kombilad.get, block, wrong)
        # The whole block is checked before the path, within the same limits.
        for end in range(len(block)):
            with self.assertRaises(kombilad.BlockError) as expected:
                kombilad.check(block[:end])
            with self.assertRaises(kombilad.BlockError) as raised:
                kombilad.get(block[:end], "b")
            self.assertEqual(str(raised.exception), str(expected.exception))
        long = {"k" * 70_000: ["v" * 70_000], "l": 1}
        self.assertEqual(
            kombilad.get(kombilad.encode_dag_cbor(long), "k" * 70_000 + "/0"), ("v" * 70_000, "")
        )

    def test_nothing_is_no_block(self):
        for call in (
            lambda block: kombilad.get(block, "a"),
            kombilad.check,
            kombilad.links,
            kombilad.count_links,
            kombilad.link_positions,
            kombilad.canonicalize,
            kombilad.is_canonical,
            kombilad.to_json,
        ):
            for nothing in (b"", bytearray(), memoryview(b"")):
                with self.assertRaises(kombilad.BlockError) as raised:
                    call(nothing)
                self.assertEqual(raised.exception.name, "BLOCK_END")

    def test_threads_call_at_once(self):
        with concurrent.futures.ThreadPoolExecutor(8) as pool:
            for found in pool.map(kombilad.links, [BLOCK] * 2000):
                self.assertEqual(found, [SHORT, SHORT])


class Module(unittest.TestCase):
    def test_only_bytes_become_a_cid(self):
        for wrong in (
            (int, bytes(SHORT)),
            (object, bytes(SHORT)),
            (SHORT, bytes(SHORT)),
            (Cid, "text"),
            (Cid, bytearray(bytes(SHORT))),
            (Cid, None),
            (Cid,),
        ):
            self.assertRaises(TypeError, _native.cid_of, *wrong)
        self.assertEqual(_native.cid_of(Cid, bytes(SHORT)), SHORT)
        self.assertRaises(TypeError, _native.use, int, None, None)
        self.assertRaises(TypeError, _native.use, SHORT, None, None)
        for base in (_native.CidBytes, Cid):
            self.assertRaises(TypeError, object.__new__, base)
        self.assertRaises(TypeError, _native.CidBytes)


if __name__ == "__main__":
    unittest.main()
