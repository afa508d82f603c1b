"""What the calls on files and folders of UnixFS share: blocks from a source, and limits."""

from typing import Callable, Optional

from . import _native
from ._cid import Cid
from ._errors import KombiladError, MissingBlockError
from ._status import BytesLike

# Returns the block of a CID, or None if it is missing.
Source = Callable[[Cid], Optional[BytesLike]]

# The code of the hash function identity.
_IDENTITY = 0

# The largest number of 64 bits.
_NO_LIMIT = 2**64 - 1


def limit(given: Optional[int]) -> int:
    """Returns the limit that is nearest to an integer of any size. For None there is no limit."""
    return _NO_LIMIT if given is None else max(0, min(given, _NO_LIMIT))


def wanted(walk: object) -> Optional[Cid]:
    """Returns the CID that a walk wants, or None at its end."""
    found = _native.walk_wanted(walk)
    return None if found is None else _native.cid_of(Cid, found)


def block_of(get: Source, cid: Cid) -> BytesLike:
    """Returns the block of a CID, or raises `MissingBlockError`. A CID of the hash function identity
    has its block in itself."""
    if cid.hash_code == _IDENTITY:
        return cid.digest
    block = get(cid)
    if block is None:
        raise MissingBlockError(cid)
    return block


def in_block(error: KombiladError, cid: Cid) -> KombiladError:
    """Returns the error with the CID of its block."""
    return type(error)(error.status, error.place, error.offset, cid)
