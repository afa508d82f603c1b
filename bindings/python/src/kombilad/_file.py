"""Reads files of UnixFS, block by block."""

import contextlib
import io
import operator
import threading
from typing import Any, Callable, Iterator, List, Optional

from . import _native
from ._cid import Cid
from ._errors import FileError, KombiladError
from ._node import read_node
from ._status import BytesLike, Status
from ._walk import Source, block_of, in_block, limit, wanted


class Limits:
    """The limits of walks over files."""

    def __init__(
        self,
        max_bytes: Optional[int] = None,
        max_blocks: Optional[int] = 1 << 24,
        max_waiting: Optional[int] = 1 << 18,
        max_levels: Optional[int] = 64,
    ):
        self.max_bytes, self.max_blocks = limit(max_bytes), limit(max_blocks)
        self.max_waiting, self.max_levels = max_waiting, max_levels

    def walk(self, cid: Cid, start: int = 0, length: Optional[int] = None) -> object:
        """Begins a walk over a range of the file of a CID."""
        return _native.file_new(
            bytes(cid),
            limit(start),
            limit(length),
            self.max_bytes,
            self.max_blocks,
            self.max_waiting,
            self.max_levels,
        )


def next_piece(walk: object, get: Source) -> Optional[bytes]:
    """Returns the bytes of the file in the next block, often none, or None at the end of a walk."""
    cid = wanted(walk)
    if cid is None:
        return None
    block = block_of(get, cid)
    try:
        return _native.file_take(walk, block)
    except KombiladError as error:
        raise in_block(error, cid) from None


def _pieces(walk: object, get: Source) -> Iterator[bytes]:
    while True:
        piece = next_piece(walk, get)
        if piece is None:
            return
        if piece:
            yield piece


def read_file(
    get: Callable[[Cid], Optional[BytesLike]],
    cid: Cid,
    *,
    start: int = 0,
    length: Optional[int] = None,
    max_bytes: Optional[int] = None,
    max_blocks: Optional[int] = 1 << 24,
    max_waiting: Optional[int] = 1 << 18,
    max_levels: Optional[int] = 64,
) -> Iterator[bytes]:
    """Iterates over the bytes of a file of UnixFS (IPFS), in order. `get` returns the block of a
    CID, or None if it is missing. Nobody has to trust it: each block is verified before it is read,
    and each size in a block is compared with the number of bytes. It is not asked for a block that
    is in the CID itself, by the hash function identity.

    >>> from kombilad import Cid
    >>> leaf = b"hello"
    >>> cid = Cid.of_block(leaf, 0x55)
    >>> b"".join(read_file({cid: leaf}.get, cid))
    b'hello'

    The range is at most `length` bytes from the byte `start` on. Blocks before and after it are not
    asked for. A file with no more bytes than `start` has none in the range.

    >>> b"".join(read_file({cid: leaf}.get, cid, start=1, length=3))
    b'ell'

    The limits are the numbers of bytes in the range, of blocks, of blocks that wait while another
    is read, and of levels of blocks below the root. A block that is linked twice counts twice. For
    None there is no limit.

    Raises `MissingBlockError` if `get` returns None, `VerifyError` if a block is not that of its
    CID, `BlockError` if it is not a node of DAG-PB, and `FileError` if it is not a part of the file
    or exceeds a limit. Each has the `cid` of the block. All bytes that were returned before are
    those of the file. After an error the iteration ends.

    >>> b"".join(read_file({}.get, cid))
    Traceback (most recent call last):
    kombilad.MissingBlockError: the block bafkreibm6jg3ux5qumhcn2b3flc3tyu6dmlb4xa7u5bf44yegnrjhc4yeq is missing
    >>> b"".join(read_file({cid: b"hallo"}.get, cid))
    Traceback (most recent call last):
    kombilad.VerifyError: the digest of the block is not that of the CID, in block bafkreibm6jg3ux5qumhcn2b3flc3tyu6dmlb4xa7u5bf44yegnrjhc4yeq
    """
    if start < 0 or (length is not None and length < 0):
        raise ValueError("a range begins at 0 or later, and its length is not negative")
    limits = Limits(max_bytes, max_blocks, max_waiting, max_levels)
    return _pieces(limits.walk(cid, start, length), get)


def _size(cid: Cid, block: BytesLike) -> int:
    """Returns the size of the file of which this is the root, and valid."""
    size = read_node(cid, block).size
    if size is None:
        raise FileError(Status.FILE_TOO_LARGE, cid=cid)
    return size


class FileReader(io.RawIOBase):
    """A file of UnixFS that `open_file` has opened for reading: a binary file without a buffer, such
    as `io.BufferedReader` and `zipfile.ZipFile` take. `size` is the number of its bytes.

    It keeps the bytes of at most one block. If the position moves out of them, the next read begins
    a new walk, which asks for the root and the blocks above the position again. Reading on from
    their end does not.

    One call uses it at a time. Another one, by `get` or in another thread, raises `RuntimeError`.
    """

    def __init__(self, get: Source, cid: Cid, limits: Limits):
        super().__init__()
        self._get, self._cid, self._limits = get, cid, limits
        self._lock = threading.Lock()
        self._at = 0
        # The bytes of the file from the byte `_piece_at` on that were read last. The walk goes on
        # after them.
        self._piece, self._piece_at = b"", 0
        self._walk: Optional[object] = limits.walk(cid)
        block = block_of(get, cid)
        try:
            self._piece = _native.file_take(self._walk, block)
            self._size = _size(cid, block)
        except KombiladError as error:
            raise in_block(error, cid) from None

    @property
    def size(self) -> int:
        return self._size

    def close(self) -> None:
        """Closes it, and frees what it keeps. Other calls then raise `ValueError`."""
        self._walk, self._piece = None, b""
        super().close()

    @contextlib.contextmanager
    def _alone(self) -> Iterator[None]:
        if self.closed:
            raise ValueError("I/O operation on closed file")
        if not self._lock.acquire(blocking=False):
            raise RuntimeError("another call uses the file")
        try:
            yield
        finally:
            self._lock.release()

    def readable(self) -> bool:
        """Returns True."""
        return True

    def seekable(self) -> bool:
        """Returns True."""
        return True

    def tell(self) -> int:
        """Returns the position."""
        if self.closed:
            raise ValueError("I/O operation on closed file")
        return self._at

    def seek(self, offset: int, whence: int = io.SEEK_SET) -> int:
        """Moves the position, and returns it. It may be after the end, where there are no bytes. No
        block is read. Raises `ValueError` if the new position is negative."""
        with self._alone():
            begins = {io.SEEK_SET: 0, io.SEEK_CUR: self._at, io.SEEK_END: self._size}
            if whence not in begins:
                raise ValueError(f"invalid whence: {whence}")
            at = begins[whence] + operator.index(offset)
            if at < 0:
                raise ValueError(f"negative position: {at}")
            self._at = at
            return at

    def _next(self) -> memoryview:
        """Returns the bytes from the position on that are in one block, or none at the end."""
        while self._at < self._size:
            skipped = self._at - self._piece_at
            if 0 <= skipped < len(self._piece):
                return memoryview(self._piece)[skipped:]
            # After an error there is no walk, so the next call begins a new one.
            walk, self._walk = self._walk, None
            if walk is None or skipped != len(self._piece):
                walk = self._limits.walk(self._cid, self._at)
            self._piece, self._piece_at = b"", self._at
            piece = next_piece(walk, self._get)
            if piece is None:
                break
            self._walk, self._piece = walk, piece
        return memoryview(b"")

    def _read(self, size: int, put: Callable[[memoryview], Any]) -> None:
        """Gives at most so many bytes to a function. After an error the position is as before."""
        with self._alone():
            begin = self._at
            try:
                while size > 0:
                    part = self._next()[:size]
                    if not part:
                        break
                    put(part)
                    self._at += len(part)
                    size -= len(part)
            except BaseException:
                self._at = begin
                raise

    def readinto(self, buffer: Any) -> int:
        """Reads bytes into a buffer until it is full or the file ends, and returns their number. After
        an error the position is as before, and the buffer may have other bytes."""
        with memoryview(buffer) as view, view.cast("B") as room:
            at = 0

            def put(part: memoryview) -> None:
                nonlocal at
                room[at : at + len(part)] = part
                at += len(part)

            self._read(len(room), put)
            return at

    def read(self, size: Optional[int] = -1) -> bytes:
        """Returns the next `size` bytes, or fewer at the end of the file. If the size is None or
        negative, returns all that are left. After an error the position is as before."""
        parts: List[memoryview] = []
        all_left = size is None or size < 0
        self._read(self._size if size is None or all_left else size, parts.append)
        return b"".join(parts)

    def readall(self) -> bytes:
        """Returns all bytes that are left."""
        return self.read()


def open_file(
    get: Callable[[Cid], Optional[BytesLike]],
    cid: Cid,
    *,
    max_bytes: Optional[int] = None,
    max_blocks: Optional[int] = 1 << 24,
    max_waiting: Optional[int] = 1 << 18,
    max_levels: Optional[int] = 64,
) -> FileReader:
    """Opens a file of UnixFS for reading at any position, and reads the block of its root. `get`,
    the limits and the errors are those of `read_file`. The limits on blocks apply to each walk from
    a position on.

    >>> from kombilad import Cid
    >>> leaf = b"hello"
    >>> cid = Cid.of_block(leaf, 0x55)
    >>> file = open_file({cid: leaf}.get, cid)
    >>> file.size, file.seek(-2, 2), file.read(), file.tell()
    (5, 3, b'lo', 5)

    An error is raised when the file is opened, or by the call that needs the block. The position is
    then as before that call, so it is the number of bytes that were returned, and the next call
    asks for the block again.
    """
    return FileReader(get, cid, Limits(max_bytes, max_blocks, max_waiting, max_levels))
