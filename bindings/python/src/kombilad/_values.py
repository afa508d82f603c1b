"""The values of blocks as Python objects, and the blocks of such values."""

from typing import Any, Dict, List, Optional, Tuple, Type, Union

from . import _native
from ._cid import Cid
from ._status import BytesLike

_decode, _decode_multi, _decode_pb, _encode = (
    _native.decode,
    _native.decode_multi,
    _native.decode_pb,
    _native.encode,
)
_get = _native.get


def decode_dag_cbor(
    data: BytesLike,
    *,
    cids: Type[Union[Cid, str, bytes]] = Cid,
    levels: int = 1024,
    values: Optional[int] = None,
) -> Any:
    """Returns the value of a block of DAG-CBOR: None, a bool, int, float, str, bytes or `Cid`, a
    list of values, or a dict of values with strings as keys.

    >>> decode_dag_cbor(bytes.fromhex("a2616101616cd82a450001550000"))
    {'a': 1, 'l': Cid('bafkqaaa')}

    `cids` is the class of a link: `Cid`, `str` for its text, or `bytes`.

    >>> decode_dag_cbor(bytes.fromhex("d82a450001550000"), cids=str)
    'bafkqaaa'

    Raises the errors of `check`, within the same limits: `levels` of lists and maps, and a number
    of `values`. The value takes up to about a hundred times the memory of the block. A dict has its
    keys in the order of the block. Only keys, constants and small integers may be shared between
    parts of the value.

    >>> decode_dag_cbor(bytes.fromhex("8201"))
    Traceback (most recent call last):
    kombilad.BlockError: the bytes end before the item does, at byte 2
    >>> decode_dag_cbor(bytes.fromhex("818180"), levels=2)
    Traceback (most recent call last):
    kombilad.LimitError: lists and maps nest deeper than the limit, at byte 2
    """
    return _decode(data, cids, levels, values)


def decode_dag_cbor_multi(
    data: BytesLike,
    *,
    cids: Type[Union[Cid, str, bytes]] = Cid,
    levels: int = 1024,
    values: Optional[int] = None,
) -> List[Any]:
    """Returns the values of blocks that follow one another. The limits apply to each block. The
    offset of an error counts from the beginning of `data`.

    >>> decode_dag_cbor_multi(bytes.fromhex("01 6161 80"))
    [1, 'a', []]
    >>> decode_dag_cbor_multi(bytes.fromhex("01 61"))
    Traceback (most recent call last):
    kombilad.BlockError: the bytes end before the item does, at byte 1
    """
    return _decode_multi(data, cids, levels, values)


def get(
    data: BytesLike,
    path: str,
    *,
    cids: Type[Union[Cid, str, bytes]] = Cid,
    levels: int = 1024,
    values: Optional[int] = None,
) -> Tuple[Any, str]:
    """Returns the value at a path in a block of DAG-CBOR, and the rest of the path. Only that value is
    decoded, as by `decode_dag_cbor`.

    >>> block = encode_dag_cbor({"a": [1, {"b": "c"}], "l": Cid("bafkqaaa")})
    >>> get(block, "a/1/b")
    ('c', '')

    In a map a segment is a key, and in a list an index. Empty segments are skipped, and the empty
    path leads to the whole value. If the path continues after a link, the value is the link, and the
    rest leads on from its block:

    >>> get(block, "l/x/y")
    (Cid('bafkqaaa'), 'x/y')

    Raises `PathError`, which is also a `LookupError`, if the path leads to nothing, and `TextError`
    if it has a lone surrogate. The block is checked first, with the errors and limits of `check`.

    >>> get(block, "a/2")
    Traceback (most recent call last):
    kombilad.PathError: the path leads to no key or index, at segment 2
    """
    encoded = path.encode("utf-8", "surrogatepass")
    value, rest = _get(data, cids, levels, values, encoded)
    return value, encoded[rest:].decode()


def decode_dag_pb(data: BytesLike, *, cids: Type[Union[Cid, str, bytes]] = Cid) -> Dict[str, Any]:
    """Returns the node of a block of DAG-PB, in the form of the IPLD specification: a dict with
    `Links` and, if the block has data, `Data` (bytes). `Links` is a list of dicts with `Hash` and,
    if the link has them, `Name` (str) and `Tsize` (int).

    >>> decode_dag_pb(bytes.fromhex("120b 0a0401550000 120161 1801 0a0178"))
    {'Data': b'x', 'Links': [{'Hash': Cid('bafkqaaa'), 'Name': 'a', 'Tsize': 1}]}

    `cids` is the class of a hash: `Cid`, `str` for its text, or `bytes`. The data, such as those of
    UnixFS, are not interpreted. The call holds the interpreter's lock. Raises `BlockError` if the
    bytes are not such a block.

    >>> decode_dag_pb(bytes.fromhex("0a02"))
    Traceback (most recent call last):
    kombilad.BlockError: the bytes end before the field does, at byte 0
    """
    return _decode_pb(data, cids)


def encode_dag_cbor(
    value: Any, *, cids: Type[Union[Cid, bytes]] = Cid, levels: int = 1024
) -> bytes:
    """Returns the canonical block of a value: None, a bool, int, float, str, bytes, bytearray,
    memoryview or `Cid`, a list or tuple of values, or a dict of values with strings as keys.
    Subclasses of these are accepted. The keys of a dict are sorted.

    >>> encode_dag_cbor({"bb": 1, "a": [None, 1.5]}).hex()
    'a2616182f6fb3ff800000000000062626201'

    With `cids=bytes`, bytes that are a CID become a link.

    Raises `EncodeError` if a value has no block, `LimitError` if lists and maps nest deeper than
    `levels` or one contains itself, and `UnicodeEncodeError` for a string with a lone surrogate.
    libkombilad checks that the result is a canonical block.

    >>> encode_dag_cbor(float("nan"))
    Traceback (most recent call last):
    kombilad.EncodeError: a float is NaN or an infinity
    """
    return _encode(value, cids, levels)
