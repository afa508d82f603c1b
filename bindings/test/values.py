"""Tests values of blocks from Python: compared with a plain reader and cbor2, every error with its
offset, limits, depth, threads, and encoding.

usage: python values.py [COUNT [SEED]]
"""

import collections
import concurrent.futures
import enum
import gc
import math
import pickle
import random
import struct
import sys
import threading
import unittest

import kombilad
import random_blocks
import reader
from kombilad import Cid

try:
    import cbor2
except ImportError:
    cbor2 = None

SHORT = Cid("bafkqaaa")
LINK = b"\xd8\x2a\x45\0" + bytes(SHORT)
COUNT = 3000
SEED = 1


def plainly(block, at=0):
    """Returns the value of a valid block, with each link as a `Cid`, and its end."""
    major, more, at = block[at] >> 5, block[at] & 31, at + 1
    width = 1 << more - 24 if more >= 24 else 0
    argument = int.from_bytes(block[at : at + width], "big") if width else more
    at += width
    if major in (0, 1):
        return (argument, -1 - argument)[major], at
    if major == 2:
        return block[at : at + argument], at + argument
    if major == 3:
        return block[at : at + argument].decode(), at + argument
    if major == 4:
        items = []
        for _ in range(argument):
            item, at = plainly(block, at)
            items.append(item)
        return items, at
    if major == 5:
        pairs = {}
        for _ in range(argument):
            key, at = plainly(block, at)
            pairs[key], at = plainly(block, at)
        return pairs, at
    if major == 6:
        content, at = plainly(block, at)
        return Cid(content[1:]), at
    if more == 27:
        return struct.unpack(">d", block[at - 8 : at])[0], at
    return {20: False, 21: True, 22: None}[more], at


def shown(value):
    """
    Returns a text that differs if values, their types, the order of keys or the sign of a zero
    differ.
    """
    return repr(value)


def with_links(value, of):
    """Returns the value with each CID replaced."""
    if isinstance(value, Cid):
        return of(value)
    if isinstance(value, list):
        return [with_links(item, of) for item in value]
    if isinstance(value, dict):
        return {key: with_links(item, of) for key, item in value.items()}
    return value


def outcome(call, *arguments, **named):
    """Returns the result of a call, or the type, the name and the offset of its error."""
    try:
        return call(*arguments, **named)
    except kombilad.KombiladError as error:
        return (type(error), error.name, error.offset)


class Random(unittest.TestCase):
    def test_they_are_those_of_a_plain_reader_and_of_cbor2(self):
        source, valid, together, expected = random_blocks.Source(SEED), 0, b"", []
        for number in range(COUNT):
            source.floats = 0.3 if number % 3 else 0.0
            block = source.block(source.random.choice([0, 1, 2, 3]))
            if number % 5 > 2:
                block = source.changed(block)
            levels, values = source.random.choice(
                [(64, 10**6), (64, 10**6), (2, 10**6), (64, 7), (0, 3), (3, 0)]
            )
            limits = {"levels": levels, "values": values}
            ours = outcome(kombilad.decode_dag_cbor, block, **limits)
            try:
                canonical = reader.read(block, levels, values, reader.ReadWithFloats).canonical
            except reader.Rejected as why:
                of = kombilad.LimitError if why.name.startswith("TOO_") else kombilad.BlockError
                self.assertEqual(ours, (of, random_blocks.name_of(why), why.offset), block.hex())
                continue
            valid += 1
            theirs, end = plainly(block)
            self.assertEqual(end, len(block))
            self.assertEqual(shown(ours), shown(theirs), block.hex())
            self.assertEqual(kombilad.decode_dag_cbor(block, cids=str), with_links(theirs, str))
            self.assertEqual(kombilad.decode_dag_cbor(block, cids=bytes), with_links(theirs, bytes))
            self.assertEqual(kombilad.encode_dag_cbor(ours), canonical)
            if cbor2:
                tagged = with_links(theirs, lambda cid: cbor2.CBORTag(42, b"\0" + bytes(cid)))
                self.assertEqual(shown(cbor2.loads(block)), shown(tagged))
            together += block
            expected.append(theirs)
        self.assertEqual(shown(kombilad.decode_dag_cbor_multi(together)), shown(expected))
        self.assertGreater(valid, COUNT // 3)
        print(
            f"values: {COUNT} blocks of seed {SEED} ({valid} of them valid){'' if cbor2 else ', without cbor2'}: no difference"
        )


class Decoding(unittest.TestCase):
    def test_numbers_of_every_size(self):
        for number in [
            0,
            23,
            24,
            255,
            256,
            65535,
            65536,
            (1 << 32) - 1,
            1 << 32,
            (1 << 63) - 1,
            1 << 63,
            (1 << 64) - 1,
        ]:
            for value in (number, -1 - number):
                block = kombilad.encode_dag_cbor(value)
                self.assertEqual(shown(plainly(block)[0]), shown(value))
                self.assertEqual(shown(kombilad.decode_dag_cbor(block)), shown(value))
        for value in (0.0, -0.0, 1.5, 5e-324, 1.7976931348623157e308):
            block = b"\xfb" + struct.pack(">d", value)
            self.assertEqual(kombilad.encode_dag_cbor(value), block)
            self.assertEqual(shown(kombilad.decode_dag_cbor(block)), shown(value))

    def test_every_error_has_its_name_and_offset(self):
        rows = [
            ("BLOCK_END", 1, "81"),
            ("BLOCK_END", 0, "1901"),
            ("BLOCK_NOT_SHORTEST", 1, "811817"),
            ("BLOCK_FLOAT", 1, "81f93c00"),
            ("BLOCK_FLOAT", 0, "fb7ff8000000000000"),
            ("BLOCK_FLOAT", 0, "fbfff0000000000000"),
            ("BLOCK_UNSUPPORTED", 0, "f7"),
            ("BLOCK_UNSUPPORTED", 1, "81c100"),
            ("BLOCK_UNSUPPORTED", 0, "9fff"),
            ("BLOCK_UTF8", 1, "8162c328"),
            ("BLOCK_UTF8", 1, "a161ff00"),
            ("BLOCK_KEY_NOT_TEXT", 1, "a10102"),
            ("BLOCK_DUPLICATE_KEY", 4, "a2616101616102"),
            ("BLOCK_LINK_BYTES", 2, "d82a40"),
            ("BLOCK_LINK_BYTES", 2, "d82a6100"),
            ("BLOCK_TRAILING_BYTES", 1, "0000"),
            ("LINK_END", 2, "d82a420001"),
            ("LINK_NOT_SHORTEST", 2, "d82a43008100"),
            ("LINK_VARINT_TOO_LARGE", 2, "d82a4c00ffffffffffffffffffffff"),
            ("LINK_EXPLICIT_VERSION_0", 2, "d82a420000"),
            ("LINK_UNKNOWN_VERSION", 2, "d82a420002"),
            ("LINK_DIGEST_TOO_LONG", 2, "d82a450001550041"),
            ("LINK_TRAILING_BYTES", 2, "d82a46000155000000"),
        ]
        for name, offset, block in rows:
            self.assertEqual(
                outcome(kombilad.decode_dag_cbor, bytes.fromhex(block)),
                (kombilad.BlockError, name, offset),
                block,
            )
            after = bytes.fromhex("6161" + block)
            if name != "BLOCK_TRAILING_BYTES":
                self.assertEqual(
                    outcome(kombilad.decode_dag_cbor_multi, after),
                    (kombilad.BlockError, name, offset + 2),
                    block,
                )
        self.assertEqual(
            {name for name, _, _ in rows},
            {it.name for it in kombilad.Status if it.name.startswith(("BLOCK_", "LINK_"))},
        )
        self.assertEqual(
            outcome(kombilad.decode_dag_cbor, b""), (kombilad.BlockError, "BLOCK_END", 0)
        )
        self.assertEqual(kombilad.decode_dag_cbor_multi(b""), [])

    def test_limits(self):
        deep = b"\x81" * 5 + b"\x80"
        for call in (kombilad.decode_dag_cbor, kombilad.decode_dag_cbor_multi):
            for limits in (
                {"levels": 6, "values": 6},
                {"levels": 1 << 70, "values": 1 << 70},
                {"values": None},
            ):
                call(deep, **limits)
            for limits, name, offset in (
                ({"levels": 5}, "TOO_DEEP", 5),
                ({"values": 5}, "TOO_MANY", 5),
                ({"levels": -1}, "TOO_DEEP", 0),
                ({"values": -(1 << 70)}, "TOO_MANY", 0),
            ):
                self.assertEqual(outcome(call, deep, **limits), (kombilad.LimitError, name, offset))
            for wrong in (
                {"levels": "6"},
                {"levels": 1.5},
                {"values": "6"},
                {"cids": int},
                {"cids": "text"},
            ):
                self.assertRaises(TypeError, call, deep, **wrong)
        self.assertEqual(
            outcome(kombilad.decode_dag_cbor, b"\x81" * 1024 + b"\x80"),
            (kombilad.LimitError, "TOO_DEEP", 1024),
        )

    def test_any_object_with_bytes_is_a_block(self):
        block = b"\x82" + LINK + b"\x61a"
        for given in (
            block,
            bytearray(block),
            memoryview(block),
            memoryview(bytearray(b"__" + block))[2:],
        ):
            self.assertEqual(kombilad.decode_dag_cbor(given), [SHORT, "a"])
            self.assertEqual(kombilad.decode_dag_cbor_multi(given), [[SHORT, "a"]])
        for wrong in ("text", 7, None, [0x80], memoryview(block)[::2]):
            self.assertRaises((TypeError, BufferError), kombilad.decode_dag_cbor, wrong)
        grown = bytearray(b"\x81")
        self.assertRaises(kombilad.BlockError, kombilad.decode_dag_cbor, grown)
        grown.extend(b"\x80")  # it can't grow while the library uses its buffer
        self.assertEqual(kombilad.decode_dag_cbor(grown), [[]])

    def test_depth_takes_no_stack(self):
        # CPython 3.13 takes megabytes of the stack to free nested lists.
        threading.stack_size((64 if sys.version_info < (3, 13) else 16 << 10) << 10)
        found = []

        def work():
            open_lists = b"\x81" * 10_000_000
            found.append(outcome(kombilad.decode_dag_cbor, open_lists, levels=1 << 60))
            found.append(
                outcome(kombilad.decode_dag_cbor, b"\xa1\x60" * 10_000_000, levels=1 << 60)
            )
            value, depth = kombilad.decode_dag_cbor(b"\x81" * 300_000 + b"\x80", levels=1 << 60), 0
            again = kombilad.encode_dag_cbor(value, levels=1 << 60)
            while value:
                value, depth = value[0], depth + 1
            found.append((depth, again == b"\x81" * 300_000 + b"\x80"))
            value = kombilad.decode_dag_cbor(b"\xa1\x61a" * 100_000 + b"\xf6", levels=1 << 60)
            found.append(
                kombilad.encode_dag_cbor(value, levels=1 << 60) == b"\xa1\x61a" * 100_000 + b"\xf6"
            )

        try:
            thread = threading.Thread(target=work)
            thread.start()
            thread.join()
        finally:
            threading.stack_size(0)
        end = (kombilad.BlockError, "BLOCK_END")
        self.assertEqual(found, [(*end, 10_000_000), (*end, 20_000_000), (300_000, True), True])

    def test_keys_are_kept_apart(self):
        # More keys than are kept, of every length up to those that are too long to be kept. They
        # come twice, so some are found among the kept ones.
        for _ in range(2):
            for length in range(80):
                for letter in ("a", "b", "ö", "\0"):
                    for place in {0, length // 2, max(length - 1, 0)}:
                        key = "x" * place + letter + "x" * (length - place)
                        self.assertEqual(
                            kombilad.decode_dag_cbor(kombilad.encode_dag_cbor({key: 1})), {key: 1}
                        )
        many = {f"key {number}": number for number in range(20_000)}
        self.assertEqual(kombilad.decode_dag_cbor(kombilad.encode_dag_cbor(many)), many)

    def test_a_tape_that_needs_more_is_made_again(self):
        for count in (
            127,
            128,
            129,
            2_046,
            2_047,
            2_048,
            2_049,
            8_191,
            8_192,
            8_193,
            65_536,
            200_000,
        ):
            block = kombilad.encode_dag_cbor([0] * count)
            self.assertEqual(kombilad.decode_dag_cbor(block), [0] * count)

    def test_blocks_larger_than_the_first_part_follow_one_another(self):
        large, small = kombilad.encode_dag_cbor(["x" * 70_000]), b"\x01"
        values = kombilad.decode_dag_cbor_multi(small + large + small * 3 + large + large)
        self.assertEqual(values, [1, ["x" * 70_000], 1, 1, 1, ["x" * 70_000], ["x" * 70_000]])
        exact = b"\x59\xff\xfd" + bytes(65_533)
        self.assertEqual(kombilad.decode_dag_cbor_multi(memoryview(exact * 2)), [bytes(65_533)] * 2)

    def test_threads_decode_at_once(self):
        block = kombilad.encode_dag_cbor([{"key": ["text", 1.5, SHORT, b"bytes"]}] * 5_000)
        value = [{"key": ["text", 1.5, SHORT, b"bytes"]}] * 5_000
        with concurrent.futures.ThreadPoolExecutor(8) as pool:
            for found in pool.map(kombilad.decode_dag_cbor, [block] * 40):
                self.assertEqual(found, value)
            for found in pool.map(kombilad.encode_dag_cbor, [value] * 40):
                self.assertEqual(found, block)

    def test_nothing_is_kept(self):
        block = kombilad.encode_dag_cbor(
            {"a": [1 << 40, 2.5, "text" * 9, b"bytes", SHORT, {"b": {}}]}
        )
        wrong = block[:-1] + b"\xff"

        def work():
            kombilad.decode_dag_cbor(block, cids=random.choice([Cid, str, bytes]))
            outcome(kombilad.decode_dag_cbor, wrong)
            outcome(kombilad.encode_dag_cbor, [{"a": [1 << 40, SHORT]}], levels=2)
            for value in ({"a": [1, {1, 2}]}, {"a": 1, 7: 2}, [{"a": "\ud800"}]):
                self.assertRaises(ValueError, kombilad.encode_dag_cbor, value)

        for _ in range(10):
            work()
        gc.collect()
        before = sys.getallocatedblocks()
        for _ in range(300):
            work()
        gc.collect()
        self.assertLess(sys.getallocatedblocks() - before, 100)


class Color(enum.IntEnum):
    RED = 7


class Lies(dict):
    """A dict that reports another length and other pairs than it contains."""

    def __len__(self):
        return 9

    def items(self):
        return [("z", 1)]


class Encoding(unittest.TestCase):
    def test_keys_come_by_length_and_then_by_bytes(self):
        names = ["", "a", "b", "ä", "aa", "ab", "zz", "日", "aaa", "🙂", "zzzz"]
        for _ in range(50):
            random.shuffle(names)
            block = kombilad.encode_dag_cbor({name: index for index, name in enumerate(names)})
            keys = [name.encode() for name in kombilad.decode_dag_cbor(block)]
            self.assertEqual(keys, sorted(keys, key=lambda key: (len(key), key)))

    def test_subclasses_are_their_base(self):
        rows = [
            (Color.RED, b"\x07"),
            (collections.OrderedDict(b=1, a=2), b"\xa2\x61a\x02\x61b\x01"),
            ((1, (2,)), b"\x82\x01\x81\x02"),
            (collections.namedtuple("Pair", "x y")(1, 2), b"\x82\x01\x02"),
            (type("Text", (str,), {})("a"), b"\x61a"),
            (type("Bytes", (bytes,), {})(b"a"), b"\x41a"),
            (type("Float", (float,), {})(1.5), b"\xfb\x3f\xf8" + bytes(6)),
            (type("Int", (int,), {"__invert__": lambda self: 1})(-1 << 64), b"\x3b" + b"\xff" * 8),
            (Lies(a=1), b"\xa1\x61a\x01"),
            (bytearray(b"a"), b"\x41a"),
            (memoryview(b"a"), b"\x41a"),
            (type("Link", (Cid,), {})(SHORT._bytes), LINK),
            (True, b"\xf5"),
        ]
        for value, block in rows:
            self.assertEqual(kombilad.encode_dag_cbor(value), block)

    def test_what_has_no_block_is_named(self):
        rows = [
            (1 << 64, "INTEGER"),
            (-(1 << 64) - 1, "INTEGER"),
            (1 << 5000, "INTEGER"),
            (-(1 << 5000), "INTEGER"),
            (math.nan, "FLOAT"),
            (math.inf, "FLOAT"),
            (-math.inf, "FLOAT"),
            ({1: 2}, "KEY_NOT_TEXT"),
            ({b"a": 2}, "KEY_NOT_TEXT"),
            ({None: 2}, "KEY_NOT_TEXT"),
            ({1, 2}, "TYPE"),
            (object(), "TYPE"),
            (1j, "TYPE"),
            (range(3), "TYPE"),
            (Cid, "TYPE"),
        ]
        for value, name in rows:
            for whole, path in (
                (value, ()),
                ([value], (0,)),
                ((1, [], {"bb": {}, "a": [0, value], "c": 1}), (2, "a", 1)),
            ):
                with self.assertRaises(kombilad.EncodeError) as raised:
                    kombilad.encode_dag_cbor(whole)
                error = raised.exception
                self.assertEqual((error.name, error.path), (name, path))
                at = f", at {'/'.join(map(str, path))}" if path else ""
                self.assertTrue(str(error).endswith(at) and (at or ", at" not in str(error)))
                copied = pickle.loads(pickle.dumps(error))
                self.assertEqual((copied.path, str(copied)), (path, str(error)))
        deep = math.nan
        for _ in range(500):
            deep = {"a long key": deep}
        with self.assertRaises(kombilad.EncodeError) as raised:
            kombilad.encode_dag_cbor(deep)
        self.assertEqual(raised.exception.path, ("a long key",) * 500)
        self.assertLess(len(str(raised.exception)), 300)
        self.assertRaises(UnicodeEncodeError, kombilad.encode_dag_cbor, ["\ud800"])
        self.assertRaises(UnicodeEncodeError, kombilad.encode_dag_cbor, {"\ud800": 1})
        self.assertRaises(TypeError, kombilad.encode_dag_cbor, 1, cids=int)

    def test_a_value_that_holds_itself_is_too_deep(self):
        for whole in ([], {}):
            whole.append(whole) if isinstance(whole, list) else whole.update(a=whole)
            self.assertEqual(
                outcome(kombilad.encode_dag_cbor, whole)[:2], (kombilad.LimitError, "TOO_DEEP")
            )
        self.assertEqual(kombilad.encode_dag_cbor([[]], levels=2), b"\x81\x80")
        self.assertEqual(
            outcome(kombilad.encode_dag_cbor, [1, []], levels=1),
            (kombilad.LimitError, "TOO_DEEP", 2),
        )
        self.assertEqual(
            outcome(kombilad.encode_dag_cbor, {}, levels=0), (kombilad.LimitError, "TOO_DEEP", 0)
        )

    def test_keys_that_are_one_in_utf8_are_rejected(self):
        apart = type(
            "Apart",
            (str,),
            {"__eq__": lambda self, other: False, "__hash__": lambda self: id(self)},
        )
        self.assertEqual(
            outcome(kombilad.encode_dag_cbor, {apart("a"): 1, apart("a"): 2}),
            (kombilad.BlockError, "BLOCK_DUPLICATE_KEY", 4),
        )

    def test_bytes_become_links_where_that_is_asked(self):
        value = [bytes(SHORT), b"no CID", b""]
        self.assertEqual(
            kombilad.encode_dag_cbor(value, cids=bytes), b"\x83" + LINK + b"\x46no CID\x40"
        )
        self.assertEqual(kombilad.decode_dag_cbor(kombilad.encode_dag_cbor(value)), value)
        self.assertEqual(
            kombilad.decode_dag_cbor(kombilad.encode_dag_cbor(value, cids=bytes), cids=bytes), value
        )


if __name__ == "__main__":
    if len(sys.argv) > 1:
        COUNT = int(sys.argv[1])
    if len(sys.argv) > 2:
        SEED = int(sys.argv[2])
    unittest.main(argv=sys.argv[:1])
