"""Reads nodes of UnixFS: what one block says of a file, a folder or a symbolic link."""

import enum
from typing import NamedTuple, Optional

from . import _native
from ._cid import Cid
from ._errors import KombiladError
from ._status import BytesLike
from ._walk import in_block


class NodeKind(enum.IntEnum):
    """What a node of UnixFS stands for. `RAW` is bytes of a file: a raw block, or a leaf of an old
    writer. `SHARD` is a sharded folder, or a part of one.
    """

    RAW = 0
    FOLDER = 1
    FILE = 2
    METADATA = 3
    SYMLINK = 4
    SHARD = 5


class Node(NamedTuple):
    """What a block says of a file, a folder or a symbolic link. A field that it doesn't have is
    None.

    - `size` is the number of bytes of a file, by the block, or None if it is 2^64 or more.
    - `mode` has the permissions in its low twelve bits, as `os.chmod` takes them.
    - `mtime_ns` is when the content was last changed, in nanoseconds since the beginning of 1970.
    - `target` has the bytes of the target of a symbolic link, which may be any.
    """

    kind: NodeKind
    size: Optional[int]
    mode: Optional[int]
    mtime_ns: Optional[int]
    target: Optional[bytes]


def read_node(cid: Cid, block: BytesLike) -> Node:
    """Verifies the block of a CID, and returns what it says of a file, a folder or a symbolic link.
    A raw block is a file of its bytes. No other block is read, so the size is not compared with the
    blocks below.

    >>> from kombilad import RAW, Cid
    >>> read_node(Cid.of_block(b"hello", RAW), b"hello")
    Node(kind=<NodeKind.RAW: 0>, size=5, mode=None, mtime_ns=None, target=None)

    Raises `VerifyError` if the block is not that of the CID, `BlockError` if it is not a node of
    DAG-PB, and `FileError` if it is not one of UnixFS. Each has the `cid`.
    """
    try:
        kind, size, mode, time, target = _native.unixfs_node(bytes(cid), block)
    except KombiladError as error:
        raise in_block(error, cid) from None
    mtime_ns = None if time is None else time[0] * 10**9 + time[1]
    return Node(NodeKind(kind), size, mode, mtime_ns, target)
