"""The exceptions of the package."""

from typing import TYPE_CHECKING, Any, Optional, Tuple, Union

from . import _native
from ._status import Status

if TYPE_CHECKING:
    from ._cid import Cid


class KombiladError(ValueError):
    """Invalid input. `name` is the name of the error in `kombilad.h` without `KOMBILAD_`, `status`
    its number, and `offset` the byte at fault, or None. `cid` is the CID of the block at fault in a
    file or a folder, or None.

    >>> import kombilad
    >>> try:
    ...     kombilad.check(bytes.fromhex("81"))
    ... except kombilad.KombiladError as error:
    ...     print(error.name, int(error.status), error.offset, error)
    BLOCK_END 48 1 the bytes end before the item does, at byte 1
    """

    _at = "at"

    def __init__(
        self,
        status: Status,
        place: Optional[int] = None,
        offset: Optional[int] = None,
        cid: Optional["Cid"] = None,
    ):
        at = "" if place is None else f", {self._at} {place}"
        at = at if offset is None else f", at byte {offset}"
        super().__init__(
            _native.status_text(status) + at + ("" if cid is None else f", in block {cid}")
        )
        self.status = status
        self.name = status.name
        self.place = place
        self.offset = offset
        self.cid = cid

    def __reduce__(self) -> Tuple[Any, ...]:
        return (type(self), (self.status, self.place, self.offset, self.cid))


class CidError(KombiladError):
    """
    The bytes are not a CID: the leftmost error. In a CAR `offset` is the byte at which the CID
    begins.
    """


class TextError(KombiladError):
    """
    The text is not a CID's. If a character is not a letter of the base, `place` is its index.
    """


class BaseError(KombiladError):
    """The base is unknown, or a CID of version 0 has no text in it."""


class BlockError(KombiladError):
    """The bytes are not a block of DAG-CBOR or a node of DAG-PB: the leftmost error. `offset` is the
    first byte of the item, key, byte string of a link, field of a node, or trailing bytes at fault.
    """


class JsonError(KombiladError):
    """The text is not DAG-JSON: the first invalid token. `offset` is the byte at fault in its
    UTF-8. With `JSON_RESERVED_MAP` a map of a block has no DAG-JSON instead, and `offset` is its
    first byte in the block.
    """


class LimitError(KombiladError):
    """A block or a text exceeds a limit. `offset` is the first byte of the item that does. It is
    None for `TOO_LONG`: a string or bytes have 2^32 bytes or more, or a list or a map has 2^32 or
    more values and keys."""


class CarError(KombiladError):
    """The bytes are not a CAR: the leftmost error. `offset` is the byte at fault."""


class VerifyError(KombiladError):
    """A block doesn't have the digest of its CID, or the hash function is not SHA2-256, SHA2-512,
    BLAKE2b-256 or identity. In a CAR `offset` is the first byte of the block, if it is known."""


class FileError(KombiladError):
    """A block is not a node of UnixFS, or not the part of a file or a folder that its CID and the
    blocks above it name. Or a file, or what is unpacked, exceeds a limit. `offset` is the byte of the
    node's data at which a field is invalid, or None. `place` is the number of the link in a folder
    whose name is invalid or out of order, counted from 0, or None.
    """

    _at = "at link"


class PackError(KombiladError):
    """A file, a folder or a symbolic link isn't packed. If an entry of a folder is at fault, `entry` is
    its name, and `place` its number in the order of the names, counted from 0. Otherwise they are
    None."""

    def __init__(self, status: Status, place: Optional[int] = None, entry: Optional[str] = None):
        super().__init__(status)
        if entry is not None:
            self.args = (f"{self}: {_cut(entry)!r}",)
        self.place = place
        self.entry = entry

    def __reduce__(self) -> Tuple[Any, ...]:
        return (type(self), (self.status, self.place, self.entry))


class PathError(KombiladError, LookupError):
    """A path leads to nothing in a block. `place` is the number of the segment that does, counted
    from 1.

    >>> import kombilad
    >>> kombilad.get(bytes.fromhex("a1616180"), "a/0")
    Traceback (most recent call last):
    kombilad.PathError: the path leads to no key or index, at segment 2
    """

    _at = "at segment"


class MissingBlockError(LookupError):
    """A block is missing. `cid` is its CID."""

    def __init__(self, cid: "Cid"):
        super().__init__(f"the block {cid} is missing")
        self.cid = cid

    def __reduce__(self) -> Tuple[Any, ...]:
        return (type(self), (self.cid,))


class MissingEntryError(LookupError):
    """A folder has no entry with a name. `path` is the path up to that name, and `cid` the CID of the
    folder."""

    def __init__(self, path: str, cid: "Cid"):
        super().__init__(f"there is no entry {_cut(path)!r}, in folder {cid}")
        self.path = path
        self.cid = cid

    def __reduce__(self) -> Tuple[Any, ...]:
        return (type(self), (self.path, self.cid))


class SymlinkError(ValueError):
    """A symbolic link is not made: it may lead out of the folder, or no link can have its `target`
    (bytes). `path` is the path of the link in the folder, and `cid` its CID."""

    def __init__(self, reason: str, path: str, target: bytes, cid: "Cid"):
        super().__init__(f"{reason}: {_cut(path)!r}, in block {cid}")
        self.reason = reason
        self.path = path
        self.target = target
        self.cid = cid

    def __reduce__(self) -> Tuple[Any, ...]:
        return (type(self), (self.reason, self.path, self.target, self.cid))


_NOT_ENCODED = {
    "FLOAT": _native.status_text(Status.TAPE_FLOAT),
    "INTEGER": "an integer must be from -2^64 to 2^64 - 1",
    "KEY_NOT_TEXT": _native.status_text(Status.BLOCK_KEY_NOT_TEXT),
    "TYPE": "DAG-CBOR has no value for an object of the type",
}


# The maximum number of characters of a path in a message.
_LONGEST_PATH = 200


def _cut(path: str) -> str:
    half = _LONGEST_PATH // 2
    return path if len(path) <= _LONGEST_PATH else f"{path[:half]}..{path[-half:]}"


def _shown(path: Tuple[Union[str, int], ...]) -> str:
    return _cut("/".join(it if isinstance(it, str) else str(it) for it in path))


class EncodeError(ValueError):
    """A value has no block. `name` is the reason: `FLOAT`, `INTEGER`, `KEY_NOT_TEXT` or `TYPE`.
    `path` has the keys and indexes that lead to the value, or to the dict of the key.

    >>> import kombilad
    >>> kombilad.encode_dag_cbor([1 << 64])
    Traceback (most recent call last):
    kombilad.EncodeError: an integer must be from -2^64 to 2^64 - 1, at 0
    >>> kombilad.encode_dag_cbor({"a": [None, {1, 2}]})
    Traceback (most recent call last):
    kombilad.EncodeError: DAG-CBOR has no value for an object of the type set, at a/1
    """

    def __init__(self, name: str, value: object = None, path: Tuple[Union[str, int], ...] = ()):
        named = f" {type(value).__name__}" if name == "TYPE" else ""
        place = f", at {_shown(path)}" if path else ""
        super().__init__(_NOT_ENCODED[name] + named + place)
        self.name = name
        self.path = path

    def __reduce__(self) -> Tuple[Any, ...]:
        # Without the value, which may not be picklable.
        return (_encode_error, (self.name, self.path, self.args))


def _encode_error(
    name: str, path: Tuple[Union[str, int], ...], arguments: Tuple[Any, ...]
) -> EncodeError:
    error = EncodeError(name, path=path)
    error.args = arguments
    return error


# With these statuses `kombilad.h` has the number of a link instead of an offset. With `PATH_MISSING`
# and `PATH_NOT_A_CONTAINER` it has that of a segment.
_OF_LINKS = (
    Status.FOLDER_INVALID_NAME,
    Status.FOLDER_NAME_ORDER,
    Status.FOLDER_INVALID_SLOT,
    Status.FOLDER_SLOT_ORDER,
    Status.FOLDER_WRONG_SLOT,
)


def failed(status: int, place: Optional[int] = None, offset: Optional[int] = None) -> Exception:
    """Returns the exception for a status other than `OK`."""
    known = Status(status)
    if known is Status.NO_MEMORY:
        return MemoryError()
    if known in (Status.UNKNOWN_BASE, Status.V0_BASE):
        return BaseError(known)
    if known is Status.TOO_LONG:
        return LimitError(known)
    if known in (Status.TOO_DEEP, Status.TOO_MANY):
        return LimitError(known, offset=offset)
    if Status.CID_END <= known <= Status.CID_TRAILING_BYTES:
        return CidError(known, offset=offset or None)
    if Status.CAR_DONE <= known <= Status.CAR_SHORT_PAYLOAD:
        return CarError(known, offset=offset)
    if known in (Status.UNKNOWN_HASH, Status.WRONG_DIGEST):
        return VerifyError(known, offset=offset or None)
    if Status.JSON_UTF8 <= known <= Status.JSON_RESERVED_MAP:
        return JsonError(known, offset=offset)
    if Status.TEXT_UNKNOWN_BASE <= known <= Status.TEXT_UTF8:
        return TextError(known, place)
    if known in (Status.PATH_MISSING, Status.PATH_NOT_A_CONTAINER):
        return PathError(known, offset)
    if known in _OF_LINKS:
        return FileError(known, offset)
    if known in (Status.PACK_INVALID_NAME, Status.PACK_NAME_ORDER):
        return PackError(known, place)
    if known >= Status.PACK_WIDTH:
        return PackError(known)
    if Status.WALK_DONE <= known <= Status.FILE_TOO_MANY_PARTS or known >= Status.FOLDER_CODEC:
        return FileError(known)
    if Status.UNIXFS_END <= known <= Status.UNIXFS_NANOSECONDS:
        return FileError(known, offset=offset)
    return BlockError(known, offset=offset)
