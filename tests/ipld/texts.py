"""The texts of which `ipld encode` makes blocks, and their values."""

import base64
import json

from .blocks import EMPTY, OLD_CID
from .formats import dag_json


def with_bytes(value):
    """Returns a value that was read as JSON, with the bytes of DAG-JSON in it."""
    if isinstance(value, list):
        return [with_bytes(item) for item in value]
    if not isinstance(value, dict):
        return value
    if list(value) == ["/"] and isinstance(value["/"], dict):
        return base64.b64decode(value["/"]["bytes"] + "==")
    return {key: with_bytes(item) for key, item in value.items()}


# Each kind of value, with keys whose order in DAG-CBOR differs from that in DAG-JSON.
KINDS_VALUE = {
    "bb": [1, -1, 0, 2**64 - 1, -(2**64), True, False, None, []],
    "c": {"": {}, "/": 5, "é\U0001f600\x7f": '"\\/\b\f\n\r\t\x00\x1f é\U0001f600'},
    "a": [EMPTY.cid, OLD_CID],
    "aaa": [b"", b"\xfb\xff\xbf", b"hello"],
}
KINDS = dag_json(KINDS_VALUE).encode()

# A text that is typed: blanks, escapes, keys in any order, -0.
BY_HAND = r"""
{ "b" : [ 1 ,	-0, "\u00e9\ud83d\ude00\/\"" ],
  "a" : { "bytes" : {"/" : { "bytes" : "aGk" } } , "z":{"/":true}}, "\u0041":{} }
""".encode()
BY_HAND_VALUE = {"b": [1, 0, 'é\U0001f600/"'], "a": {"bytes": b"hi", "z": {"/": True}}, "A": {}}

# Floats as people type them, whose values Python's json reads: the smallest and the largest, a
# negative zero, and floats that have to be rounded.
TYPED_FLOATS = [
    "0.1",
    "-1.5",
    "-0.0",
    "0e0",
    "1E2",
    "2.5E+3",
    "1e21",
    "5e-324",
    "1e-400",
    "-1e-400",
    "2.4703282292062328e-324",
    "1.7976931348623157e308",
    "1.797693134862315807e308",
    "123456789012345678901234567890.0",
    "9007199254740993.0",
    "18446744073709551616.0",
    "1e" + "0" * 400 + "1",
    "0." + "0" * 400 + "1e402",
]
FLOATS = (
    '{"bb":['
    + " ,".join(TYPED_FLOATS)
    + ',[[],[-2.5,{"k":{"/":{"bytes":"aGk"}},"":1e0}]]], "c":3, "a": 7.0}'
).encode()
FLOATS_VALUE = with_bytes(json.loads(FLOATS))

# Floats as DAG-JSON writes them.
CANONICAL_FLOATS = b'{"a":[-0.0,0.1,1.5,5e-324,1.7976931348623157e308,1e21],"b":1.0}'
CANONICAL_FLOATS_VALUE = json.loads(CANONICAL_FLOATS)
