"""Content identifiers."""

from typing import Any, Tuple, Type, TypeVar, Union

from . import _native
from ._errors import EncodeError, failed
from ._status import BytesLike, Status

DAG_CBOR = 0x71
DAG_PB = 0x70
RAW = 0x55
SHA2_256 = 0x12

_BASES = {
    "base16": "f",
    "base32": "b",
    "base32upper": "B",
    "base36": "k",
    "base58btc": "z",
    "base64url": "u",
}

_C = TypeVar("_C", bound="Cid")


class Cid(_native.CidBytes):
    """A content identifier (CID) with a digest of at most 64 bytes. It is created from its text,
    its bytes or another `Cid`.

    >>> cid = Cid("bafyreigbtj4x7ip5legnfznufuopl4sg4knzc2cof6duas4b3q2fy6swua")
    >>> cid.version, hex(cid.codec), hex(cid.hash_code), len(cid.digest)
    (1, '0x71', '0x12', 32)
    >>> bytes(cid)[:4]
    b'\\x01q\\x12 '
    >>> Cid(bytes(cid)) == cid
    True
    >>> print(Cid("/ipfs/QmdfTbBqBPQ7VNxZEYEj14VmRuZBkqFbiwReogJgS1zR1n"))
    QmdfTbBqBPQ7VNxZEYEj14VmRuZBkqFbiwReogJgS1zR1n

    It is immutable and hashable, and is ordered by version, codec, hash code, length of the digest,
    and digest. It never equals bytes or a string. `f"{cid:base16}"` is its text in a base.

    The text may be in any base of `to_text`, with or without `/ipfs/` before it. Raises `TextError`
    if the text isn't in such a base, and `CidError` if the bytes, or those that the text encodes,
    are not a CID.

    >>> Cid("bafkqaa1")
    Traceback (most recent call last):
    kombilad.TextError: a character is not a letter of the base, at 7
    >>> Cid(b"\\x01\\x55")
    Traceback (most recent call last):
    kombilad.CidError: the bytes end before the CID does
    """

    __slots__ = ()

    def __new__(cls: Type[_C], value: Union[str, BytesLike, "Cid"]) -> _C:
        if isinstance(value, str):
            return _native.cid_of(cls, _native.cid_from_text(value))
        if isinstance(value, Cid):
            return _native.cid_of(cls, value._bytes)
        return _native.cid_of(cls, _native.cid_check(value))

    @classmethod
    def of_block(cls: Type[_C], block: BytesLike, codec: int = DAG_CBOR) -> _C:
        """Returns the CID of a block: version 1 with this codec and the block's SHA2-256 digest.

        >>> Cid.of_block(b"\\xa0")
        Cid('bafyreigbtj4x7ip5legnfznufuopl4sg4knzc2cof6duas4b3q2fy6swua')
        """
        if not 0 <= codec < 1 << 64:
            raise OverflowError("a codec is from 0 to 2^64 - 1")
        return _native.cid_of(cls, _native.cid_of_block(codec, block))

    def to_text(self, base: str = "") -> str:
        """Returns the text in a base: base16, base32, base32upper, base36, base58btc or base64url.
        The default is base32, and base58btc for version 0, which has no text in another base.
        Raises `BaseError` for any other base.

        >>> Cid("bafkqaaa").to_text("base16")
        'f01550000'
        >>> Cid("bafkqaaa").to_text("base2")
        Traceback (most recent call last):
        kombilad.BaseError: the base is unknown
        """
        if base and base not in _BASES:
            raise failed(Status.UNKNOWN_BASE)
        return _native.cid_to_text(self._bytes, ord(_BASES[base]) if base else 0)

    def __str__(self) -> str:
        return self.to_text()

    def __format__(self, base: str) -> str:
        return self.to_text(base)

    def __repr__(self) -> str:
        return f"Cid({self.to_text()!r})"

    def __bytes__(self) -> bytes:
        return self._bytes

    def __reduce__(self) -> Tuple[Any, ...]:
        return (type(self), (self._bytes,))


_native.use(Cid, failed, EncodeError)
