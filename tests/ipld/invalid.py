"""The files that are not valid, and what is wrong with each."""

import collections
import unicodedata

from .blocks import LEAF, PART
from .formats import DAG_JSON, block, car, car_v2, cbor, framed, varint

INVALID_LINK = "invalid link: not a CID in base32 (version 1) or base58btc (version 0)"
INVALID_BYTES = "invalid bytes: not base64 without padding"
RESERVED = 'DAG-JSON reserves this object: it must be {"/":"CID"} or {"/":{"bytes":".."}}'
TOO_LARGE_FLOAT = "the number is too large for a 64-bit float"
TOO_LARGE_INTEGER = "the integer is below -2^64 or above 2^64 - 1"
NOT_JSON = "not valid JSON"
JSON_ENDS = "unexpected end of the text"
NOT_UTF8 = "the text is not valid UTF-8"


class InvalidFile(collections.namedtuple("InvalidFile", "name data error why")):
    """
    A file, and its error: the name that `--json` prints, or None, and the sentence, which ends with
    the offset.
    """

    __slots__ = ()

    @property
    def at(self):
        return int(self.why.split()[-1])

    @property
    def hint(self):
        """What the file seems to be, after the sentence."""
        if not self.data:
            return " (the file is empty)"
        return " (it looks like text)" if is_text(self.data) else ""


class InvalidJson(collections.namedtuple("InvalidJson", "name data line column at error why")):
    """
    A text that is not DAG-JSON: the place of its error as people count, the offset, the name that
    `--json` prints, or None, and the sentence.
    """

    __slots__ = ()

    @property
    def sentence(self):
        return f"line {self.line}, column {self.column} (byte {self.at}): {self.why}"


def is_text(data):
    """Returns whether bytes are UTF-8 without control characters except tabs and line ends."""
    try:
        text = data.decode()
    except UnicodeDecodeError:
        return False
    return not any(unicodedata.category(it) == "Cc" and it not in "\t\r\n" for it in text)


def numbered(extension, rows):
    """Returns the rows as files with a number in their names."""
    return [InvalidFile(f"bad{number}.{extension}", *row) for number, row in enumerate(rows)]


# DAG-CBOR, by RFC 8949

FLOAT = "fb3ff0000000000000"
ONLY_TAG = "(DAG-CBOR has only tag 42)"
ONLY_SIMPLE = "(DAG-CBOR has only false, true and null)"
ONLY_FLOAT = "(DAG-CBOR has only 64-bit floats)"
ONLY_STRINGS = "(only strings are allowed)"
NOT_ALLOWED = "of indefinite length (not allowed in DAG-CBOR)"
NO_ITEM = "the bytes end where an item has to begin"
LONGER = "is not in its shortest form"
INVALID_CBOR = numbered(
    "cbor",
    [
        (bytes.fromhex(digits), error, f"not valid DAG-CBOR: {why}")
        for digits, error, why in [
            ("", "End", f"{NO_ITEM} at byte 0"),
            ("81", "End", f"{NO_ITEM} at byte 1"),
            ("a16161", "End", f"{NO_ITEM} at byte 3"),
            ("d82a", "End", f"{NO_ITEM} at byte 2"),
            ("18", "End", "the bytes end within the head of an item at byte 0"),
            ("8119aa", "End", "the bytes end within the head of an item at byte 1"),
            ("42ff", "End", "the bytes end within a byte string of 2 bytes at byte 0"),
            ("63ff61", "End", "the bytes end within a text string of 3 bytes at byte 0"),
            (
                "5bffffffffffffffff",
                "End",
                "the bytes end within a byte string of 18446744073709551615 bytes at byte 0",
            ),
            (FLOAT[:-2], "End", "the bytes end within a float at byte 0"),
            ("c24101", "Unsupported", f"a bignum, tag 2 {ONLY_TAG} at byte 0"),
            ("c34101", "Unsupported", f"a bignum, tag 3 {ONLY_TAG} at byte 0"),
            ("82f6c100", "Unsupported", f"tag 1 {ONLY_TAG} at byte 2"),
            ("d81840", "Unsupported", f"tag 24 {ONLY_TAG} at byte 0"),
            ("d9d9f7a0", "Unsupported", f"tag 55799 {ONLY_TAG} at byte 0"),
            ("db000000010000000000", "Unsupported", f"tag 4294967296 {ONLY_TAG} at byte 0"),
            ("f7", "Unsupported", f"undefined {ONLY_SIMPLE} at byte 0"),
            ("e0", "Unsupported", f"the simple value 0 {ONLY_SIMPLE} at byte 0"),
            ("f3", "Unsupported", f"the simple value 19 {ONLY_SIMPLE} at byte 0"),
            ("81f8ff", "Unsupported", f"the simple value 255 {ONLY_SIMPLE} at byte 1"),
            ("f814", "Unsupported", f"the simple value 20 {ONLY_SIMPLE} at byte 0"),
            ("f8", "Unsupported", f"a simple value {ONLY_SIMPLE} at byte 0"),
            ("1c", "Unsupported", "the reserved additional information 28 at byte 0"),
            ("7d", "Unsupported", "the reserved additional information 29 at byte 0"),
            ("fe", "Unsupported", "the reserved additional information 30 at byte 0"),
            ("1f", "Unsupported", "the reserved additional information 31 at byte 0"),
            ("3f", "Unsupported", "the reserved additional information 31 at byte 0"),
            ("df", "Unsupported", "the reserved additional information 31 at byte 0"),
            ("81ff", "Unsupported", "a break at byte 1"),
            ("5f4100ff", "Unsupported", f"a byte string {NOT_ALLOWED} at byte 0"),
            ("7f6161ff", "Unsupported", f"a text string {NOT_ALLOWED} at byte 0"),
            ("9f01ff", "Unsupported", f"a list {NOT_ALLOWED} at byte 0"),
            ("bf616101ff", "Unsupported", f"a map {NOT_ALLOWED} at byte 0"),
            ("f93c00", "Float", f"a 16-bit float {ONLY_FLOAT} at byte 0"),
            ("81fa3f800000", "Float", f"a 32-bit float {ONLY_FLOAT} at byte 1"),
            ("fb7ff8000000000000", "Float", "NaN at byte 0"),
            ("fb7ff0000000000001", "Float", "NaN at byte 0"),
            ("fb7ff0000000000000", "Float", "an infinity at byte 0"),
            ("81fbfff0000000000000", "Float", "an infinity at byte 1"),
            (f"a1{FLOAT}01", "Float", f"a float as a map key {ONLY_STRINGS} at byte 1"),
            (f"a2616142d82a{FLOAT}01", "Float", f"a float as a map key {ONLY_STRINGS} at byte 6"),
            (f"81d82a{FLOAT}", "Float", "invalid link: a float after tag 42 at byte 3"),
            ("a101f6", "KeyNotText", f"an integer as a map key {ONLY_STRINGS} at byte 1"),
            ("a120f6", "KeyNotText", f"an integer as a map key {ONLY_STRINGS} at byte 1"),
            ("a141fff6", "KeyNotText", f"a byte string as a map key {ONLY_STRINGS} at byte 1"),
            ("a180f6", "KeyNotText", f"a list as a map key {ONLY_STRINGS} at byte 1"),
            ("a1a0f6", "KeyNotText", f"a map as a map key {ONLY_STRINGS} at byte 1"),
            ("a1c1f6f6", "KeyNotText", f"tag 1 as a map key {ONLY_STRINGS} at byte 1"),
            ("a1f4f6", "KeyNotText", f"a Boolean as a map key {ONLY_STRINGS} at byte 1"),
            ("a1f6f6", "KeyNotText", f"null as a map key {ONLY_STRINGS} at byte 1"),
            ("a1f7f6", "KeyNotText", f"undefined as a map key {ONLY_STRINGS} at byte 1"),
            ("a26161f66161f6", "DuplicateKey", 'duplicate map key "a" at byte 4'),
            (
                "a2" + 2 * ("7840" + "61" * 64 + "f6"),
                "DuplicateKey",
                f'duplicate map key "{"a" * 64}" at byte 68',
            ),
            (
                "a2" + 2 * ("7841" + "61" * 65 + "f6"),
                "DuplicateKey",
                "duplicate map key at byte 69",
            ),
            ("d82a61ff", "LinkBytes", "invalid link: a text string after tag 42 at byte 2"),
            ("81d82a01", "LinkBytes", "invalid link: an integer after tag 42 at byte 3"),
            ("d82a40", "LinkBytes", "invalid link: an empty byte string after tag 42 at byte 2"),
            (
                "d82a4101",
                "LinkBytes",
                "invalid link: the byte string after tag 42 does not begin with 0x00 at byte 2",
            ),
            ("1805", "NotShortest", f"the argument 5 {LONGER} at byte 0"),
            ("1900ff", "NotShortest", f"the argument 255 {LONGER} at byte 0"),
            ("811a0000ffff", "NotShortest", f"the argument 65535 {LONGER} at byte 1"),
            ("1b00000000ffffffff", "NotShortest", f"the argument 4294967295 {LONGER} at byte 0"),
            ("580100", "NotShortest", f"the argument 1 {LONGER} at byte 0"),
            ("d9002a4100", "NotShortest", f"the argument 42 {LONGER} at byte 0"),
            ("8161ff", "Utf8", "a text string is not UTF-8 at byte 1"),
            ("01f6", "TrailingBytes", "1 byte left over after the value, from byte 1"),
        ]
    ],
)

# Files that don't begin as a CAR, by its specification

IN_HEADER = "not a CAR: the version in the header is"
INVALID_CARS = numbered(
    "car",
    [
        (data, None, why)
        for data, why in [
            (framed(cbor([])), "not a CAR: the header is a list instead of a map at byte 1"),
            (framed(cbor({})), 'not a CAR: the header has no field "version" at byte 1'),
            (framed(cbor({"roots": []})), 'not a CAR: the header has no field "version" at byte 1'),
            (framed(cbor({"version": 1})), 'not a CAR: the header has no field "roots" at byte 1'),
            (framed(cbor({"roots": [], "version": 3})), f"{IN_HEADER} 3 instead of 1 at byte 1"),
            (
                framed(cbor({"roots": [PART.cid] * 4, "version": 2})),
                f"{IN_HEADER} 2 instead of 1 at byte 2",
            ),
            (
                framed(cbor({"roots": [], "version": "1"})),
                f"{IN_HEADER} a text string instead of 1 at byte 1",
            ),
            (
                framed(cbor({"roots": 1, "version": 1})),
                "not a CAR: the roots in the header are an integer instead of a list of links at byte 1",
            ),
            (
                framed(cbor({"roots": [1], "version": 1})),
                "not a CAR: a root in the header is not a link at byte 1",
            ),
            (
                framed(cbor({"roots": [], "version": 1, "x": 1})),
                'not a CAR: the header has a field other than "roots" and "version" at byte 1',
            ),
            (
                framed(b"\xa1\x67version\xc2\x41\x01"),
                "not a CAR: the header is not valid DAG-CBOR: "
                f"a bignum, tag 2 {ONLY_TAG} at byte 9 of the block at byte 1",
            ),
            (
                framed(cbor({"roots": [], "version": 1.0})),
                "not a CAR: the header has a float or too many levels at byte 1",
            ),
            (
                car_v2(framed(cbor({"version": 1}))),
                'not a CAR: the header has no field "roots" at byte 52',
            ),
            (b"\x00\x80", "not a CAR: the header length is zero at byte 0"),
            (b"\x80\x00", "not a CAR: the header length is not a minimal varint at byte 1"),
            (b"\xff" * 9 + b"\x02", "not a CAR: the header length is 2^64 or more at byte 9"),
            (
                varint(2**40) + b"\xa1",
                "the CAR header is 1099511627776 bytes, over the limit "
                "(raise it with --limit), at byte 0",
            ),
            (
                car([LEAF.cid], [])[:-1],
                "not a CAR, or truncated: the header is cut off "
                f"at byte {len(car([LEAF.cid], [])) - 1}",
            ),
            (b"", "not a CAR, or truncated: the header is cut off at byte 0"),
        ]
    ],
)

# Blocks of DAG-JSON

INVALID_JSON_BLOCKS = [
    InvalidJson("no_comma.json", b"[1,\n 2,,3]", 2, 4, 7, "Syntax", NOT_JSON),
    InvalidJson("no_end.json", b'{"a":1', 1, 7, 6, "End", JSON_ENDS),
    InvalidJson(
        "no_twice.json", b'{"a":1,"b":2,\n"a":3}', 2, 1, 14, "DuplicateKey", 'duplicate key "a"'
    ),
    InvalidJson("no_float.json", b"[1e999]", 1, 2, 1, "Float", TOO_LARGE_FLOAT),
    InvalidJson(
        "no_integer.json", b"18446744073709551616", 1, 1, 0, "IntegerRange", TOO_LARGE_INTEGER
    ),
    InvalidJson("no_link.json", b'{"/":"x"}', 1, 9, 8, "Link", INVALID_LINK),
    InvalidJson("no_padded.json", b'{"/":{"bytes":"aGk="}}', 1, 22, 21, "Bytes", INVALID_BYTES),
    InvalidJson("no_reserved.json", b'{"/":"x","a":1}', 1, 15, 14, "Reserved", RESERVED),
    InvalidJson("no_utf8.json", b'"\xff"', 1, 2, 1, "Utf8", NOT_UTF8),
]
CUT_JSON = block(DAG_JSON, b'{"a":1')
CUT_JSON_ERROR = f"not valid DAG-JSON: {JSON_ENDS} at byte 6"

# Texts of which `ipld encode` can't make a block of DAG-CBOR

NOT_ENCODED = [
    InvalidJson(f"{name}.json", data, line, column, at, None, why)
    for name, data, line, column, at, why in [
        ("empty", b"", 1, 1, 0, JSON_ENDS),
        ("blank", b" \n ", 2, 2, 3, JSON_ENDS),
        ("open", b"[1", 1, 3, 2, JSON_ENDS),
        ("comma", b"[1,\n]", 2, 1, 4, NOT_JSON),
        ("two", b"1\n2", 2, 1, 2, NOT_JSON),
        ("crossed", b"[}", 1, 2, 1, NOT_JSON),
        ("no_key", b"{1:2}", 1, 2, 1, NOT_JSON),
        ("no_colon", b'{"a"}', 1, 2, 1, NOT_JSON),
        ("zero", b"[01]", 1, 2, 1, NOT_JSON),
        ("word", b"nul", 1, 1, 0, NOT_JSON),
        ("surrogate", b'["\\ud800"]', 1, 2, 1, NOT_JSON),
        ("control", b'["\x01"]', 1, 2, 1, NOT_JSON),
        ("great", b'{"a":\n 1e400}', 2, 2, 7, TOO_LARGE_FLOAT),
        ("rounded_up", b"[1.5,-1.797693134862315808e308]", 1, 6, 5, TOO_LARGE_FLOAT),
        ("fraction", b"[1.]", 1, 2, 1, NOT_JSON),
        ("point", b"[.5]", 1, 2, 1, NOT_JSON),
        ("exponent", b"[1.5e]", 1, 2, 1, NOT_JSON),
        ("infinity", b"[Infinity]", 1, 2, 1, NOT_JSON),
        ("too_wide", b"[170141183460469231731687303715884105728]", 1, 2, 1, TOO_LARGE_INTEGER),
        ("wide", b"[18446744073709551616]", 1, 2, 1, TOO_LARGE_INTEGER),
        ("wide_below", b"[-18446744073709551617]", 1, 2, 1, TOO_LARGE_INTEGER),
        ("twice_float", b'{"a":1.5,\n "\\u0061":2}', 2, 2, 11, "duplicate key"),
        ("twice_plain", b'{"a":1, "a":2}', 1, 9, 8, 'duplicate key "a"'),
        (
            "twice_long",
            b'{"%b":1,"%b":2}' % (64 * b"a", 64 * b"a"),
            1,
            71,
            70,
            f'duplicate key "{64 * "a"}"',
        ),
        ("twice_longer", b'{"%b":1,"%b":2}' % (65 * b"a", 65 * b"a"), 1, 72, 71, "duplicate key"),
        ("float_in_link", b'{"/":{"bytes":1.5},"a":{"/":"x","b":0.5}}', 1, 40, 39, RESERVED),
        ("twice", b'{"a":1,\n "\\u0061":2}', 2, 2, 9, "duplicate key"),
        ("no_cid", b'{"/":"bafk"}', 1, 12, 11, INVALID_LINK),
        ("base", b'{"/":"zdj7W"}', 1, 13, 12, INVALID_LINK),
        ("padded", b'{"/":{"bytes":"aGk="}}', 1, 22, 21, INVALID_BYTES),
        ("bits", b'{"/":{"bytes":"aGl"}}', 1, 21, 20, INVALID_BYTES),
        ("more", b'{"/":"x","a":1}', 1, 15, 14, RESERVED),
        ("more_bytes", b'{"/":{"bytes":"","c":1}}', 1, 24, 23, RESERVED),
        ("deep", b"[" * 1025, 1, 1025, 1024, "arrays and objects nest deeper than 1024 levels"),
        ("latin", b'["\xe9"]', 1, 3, 2, NOT_UTF8),
    ]
]
