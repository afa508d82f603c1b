"""Blocks of DAG-CBOR."""

from typing import List, Optional, Tuple, Union

from . import _native
from ._cid import Cid
from ._status import BytesLike


def check(block: BytesLike, *, levels: int = 1024, values: Optional[int] = None) -> None:
    """Raises `BlockError`, with the leftmost error, unless the bytes are one block of DAG-CBOR.

    >>> check(bytes.fromhex("a16161f6"))
    >>> check(bytes.fromhex("a2616101616102"))
    Traceback (most recent call last):
    kombilad.BlockError: a map has the same key twice, at byte 4

    `levels` is the maximum depth of nested lists and maps, and `values` the maximum number of
    values. Raises `LimitError` if the block exceeds a limit before its first error.

    >>> check(bytes.fromhex("818180"), levels=2)
    Traceback (most recent call last):
    kombilad.LimitError: lists and maps nest deeper than the limit, at byte 2
    """
    _native.check(block, levels, values)


def count_links(block: BytesLike, *, levels: int = 1024, values: Optional[int] = None) -> int:
    """Returns the number of links in the block. Raises the errors of `check`.

    >>> count_links(bytes.fromhex("82d82a450001550000d82a450001550000"))
    2
    """
    return _native.count_links(block, levels, values)


def links(block: BytesLike, *, levels: int = 1024, values: Optional[int] = None) -> List[Cid]:
    """Returns the links of the block in the order of its bytes, repeated links included. Raises the
    errors of `check`.

    >>> links(bytes.fromhex("a2616101616cd82a450001550000"))
    [Cid('bafkqaaa')]
    """
    return _native.links(block, levels, values)


def link_positions(
    block: BytesLike, *, levels: int = 1024, values: Optional[int] = None
) -> List[Tuple[int, int]]:
    """Returns the position of each link's CID in the block: the byte at which it begins, and its
    length. Raises the errors of `check`.

    >>> block = bytes.fromhex("a2616101616cd82a450001550000")
    >>> link_positions(block)
    [(10, 4)]
    >>> Cid(block[10:14])
    Cid('bafkqaaa')
    """
    return _native.link_positions(block, levels, values)


def canonicalize(block: BytesLike, *, levels: int = 1024, values: Optional[int] = None) -> bytes:
    """Returns the block in canonical form: the keys of each map sorted by length, then by bytes.

    It allocates 16 to 64 bytes for each value and key. Raises the errors of `check`.

    >>> canonicalize(bytes.fromhex("a2 626162 01 6163 02")).hex()
    'a261630262616201'
    """
    return _native.canonicalize(block, levels, values)


def is_canonical(block: BytesLike, *, levels: int = 1024, values: Optional[int] = None) -> bool:
    """Returns whether the block is in canonical form. Raises the errors of `check`.

    >>> is_canonical(bytes.fromhex("a2 6162 01 626161 02")), is_canonical(bytes.fromhex("a2 626161 01 6162 02"))
    (True, False)
    """
    return _native.is_canonical(block, levels, values)


def to_json(block: BytesLike, *, levels: int = 1024, values: Optional[int] = None) -> str:
    """Returns the DAG-JSON of the block: without blanks, and with the keys of each object in the
    order of their bytes. A link is the object `{"/":"bafy.."}` and bytes are
    `{"/":{"bytes":"aGk"}}`.

    >>> to_json(bytes.fromhex("a26162fb3ff80000000000006161d82a450001550000"))
    '{"a":{"/":"bafkqaaa"},"b":1.5}'

    Raises the errors of `check`, and `JsonError` if a map would be read as a link or as bytes.

    >>> to_json(bytes.fromhex("81a1612f6161"))
    Traceback (most recent call last):
    kombilad.JsonError: a map would be read as a link or as bytes in DAG-JSON, at byte 1
    """
    return _native.to_json(block, levels, values)


def from_json(
    text: Union[str, BytesLike], *, levels: int = 1024, values: Optional[int] = None
) -> bytes:
    """Returns the canonical block of a text in DAG-JSON, or of its UTF-8. The text may have blanks,
    and the keys of an object in any order.

    >>> from_json('{"bb": 1, "a": [2.0, {"/": "bafkqaaa"}]}').hex()
    'a2616182fb4000000000000000d82a45000155000062626201'

    Raises `JsonError`, with the first error, unless the text is DAG-JSON. Raises `LimitError` if it
    exceeds a limit before that. The limits count the arrays, objects and values of the text, so a
    link is two values.

    >>> from_json("[1, 2")
    Traceback (most recent call last):
    kombilad.JsonError: the text ends before its value does, at byte 5
    """
    given = text.encode("utf-8", "surrogatepass") if isinstance(text, str) else text
    return _native.from_json(given, levels, values)
