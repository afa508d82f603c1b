"""Reads CAR files: a whole file in memory, or one section after another. Writes them."""

import io
from typing import (
    Any,
    AsyncIterator,
    Awaitable,
    BinaryIO,
    Callable,
    Dict,
    Iterable,
    Iterator,
    List,
    Optional,
    Tuple,
    Type,
    Union,
)

from . import _native
from ._cid import Cid
from ._errors import failed
from ._status import BytesLike, Status

# The default limits on the bytes of a header and of a section.
HEADER_LIMIT = 8 << 20
SECTION_LIMIT = 32 << 20
# The minimum number of bytes in a request to the file.
_CHUNK = 1 << 16
# The byte of a CAR of version 2 at which its header has the offset of the payload.
_PLACE_OF_PAYLOAD = 27


def _shown(kind: Type[Union[Cid, str, bytes]], roots: List[bytes]) -> List[Any]:
    if kind is bytes:
        return list(roots)
    cids = [_native.cid_of(Cid, root) for root in roots]
    if kind is str:
        return [str(cid) for cid in cids]
    return cids


def decode_car(
    data: BytesLike,
    *,
    cids: Type[Union[Cid, str, bytes]] = Cid,
    verify: bool = False,
    levels: int = 1024,
    values: Optional[int] = None,
) -> Tuple[Dict[str, Any], Dict[Any, Any]]:
    """Returns the header of a CAR, a dict of its `version` (1 or 2) and its `roots`, and a dict of
    the values of its blocks by their CIDs.

    A block of DAG-CBOR is decoded, within the limits `levels` and `values`. A block of another
    codec is returned as bytes. With `verify`, a block whose digest isn't that of its CID raises
    `VerifyError`, as does one whose hash function is not SHA2-256, SHA2-512, BLAKE2b-256 or
    identity. `cids` is the class of CIDs, as in `decode_dag_cbor`. If two blocks have the same CID,
    the later one is returned. All values are in memory at once. `CarReader` keeps only one block in
    memory.

    >>> car = bytes.fromhex("19a265726f6f747381d82a4500015500006776657273696f6e01 0401550000 050171000001")
    >>> decode_car(car)
    ({'version': 1, 'roots': [Cid('bafkqaaa')]}, {Cid('bafkqaaa'): b'', Cid('bafyqaaa'): 1})

    Raises `CarError`, or an error of `Cid` or `decode_dag_cbor`, with the offset in the CAR.

    >>> decode_car(car[:-1])
    Traceback (most recent call last):
    kombilad.CarError: the bytes end within a header or a section, at byte 36
    """
    version, roots, blocks = _native.decode_car(data, cids, levels, values, verify, HEADER_LIMIT)
    return {"version": version, "roots": _shown(cids, roots)}, blocks


def verify(cid: Cid, block: BytesLike) -> None:
    """Raises `VerifyError` unless the block has the digest of the CID: `WRONG_DIGEST` if it has
    another, and `UNKNOWN_HASH` if the hash function is not SHA2-256, SHA2-512, BLAKE2b-256 or
    identity.

    >>> verify(Cid.of_block(b"\\xa0"), b"\\xa0")
    >>> verify(Cid.of_block(b"\\xa0"), b"\\x80")
    Traceback (most recent call last):
    kombilad.VerifyError: the digest of the block is not that of the CID
    """
    _native.verify(bytes(cid), block)


class _Window:
    """The bytes of a CAR that have been read, from the next section on.

    Its methods read the CAR by calls of the library. If these need more bytes, `lacks` returns True
    until `take` was called often enough.
    """

    def __init__(self, verify: bool, header_limit: int, section_limit: int):
        self._bytes = bytearray()
        self._begin = 0  # the index in the window at which the next section begins
        self._needed = 1  # the number of bytes from there on that the next call needs
        self._ended = False
        self._verify = verify
        self._header_limit, self._section_limit = header_limit, section_limit
        self.version = 0
        self.roots: List[Cid] = []
        self._at = self._end = 0
        self.section: Optional[Tuple[Cid, bytes]] = None
        self.is_closed = False

    def __len__(self) -> int:
        return len(self._bytes)

    def lacks(self) -> bool:
        """Returns whether more bytes have to be read first."""
        return len(self._bytes) - self._begin < self._needed and not self._ended

    def size(self) -> int:
        """Returns the number of bytes to request. Drops the sections before the next one."""
        if self._begin >= _CHUNK:
            del self._bytes[: self._begin]
            self._begin = 0
        return min(max(_CHUNK, len(self._bytes)), 1 << 20)

    def take(self, chunk: bytes) -> None:
        """Adds bytes that were read. If there are none, the CAR has ended."""
        self._ended = not chunk
        self._bytes += chunk

    def open(self) -> bool:
        """Reads the header. Returns False if that needs more bytes."""
        if self.lacks():
            return False
        found = _native.open_part(self._bytes, self._ended, self._header_limit)
        if isinstance(found, int):
            # This many bytes contain a header within the limit, and padding before it in version 2.
            most = 2 * self._header_limit + _CHUNK
            if len(self._bytes) >= most:
                raise failed(Status.CAR_TOO_LONG, offset=_PLACE_OF_PAYLOAD)
            self._needed = min(len(self._bytes) + found, most)
            return False
        self.version, self._at, self._end, roots = found
        self.roots = [_native.cid_of(Cid, root) for root in roots]
        self._begin = self._at
        return True

    def next(self) -> bool:
        """Reads the next section, or None after the last one. Returns False if that needs more
        bytes."""
        found = _native.next_part(
            self._bytes,
            self._begin,
            self._ended,
            self._section_limit,
            self.version,
            self._at,
            self._end,
        )
        if isinstance(found, int):
            self._needed = len(self._bytes) - self._begin + found
            return False
        self.section = None
        if found is not None:
            cid, begin, end = found
            with memoryview(self._bytes) as window:
                block = bytes(window[begin:end])
            self._at += end - self._begin
            self._begin = end
            if self._verify:
                _native.verify(cid, block)
            self.section = _native.cid_of(Cid, cid), block
        return True

    def close(self) -> None:
        """Drops all bytes, after which there is no section."""
        self._bytes, self._begin, self.section, self.is_closed = bytearray(), 0, None, True


class CarReader:
    """Iterates over the blocks of a CAR, as pairs of a `Cid` and bytes. The source is a binary file
    that is open for reading, or bytes.

    >>> car = bytes.fromhex("19a265726f6f747381d82a4500015500006776657273696f6e01 0401550000 050171000001")
    >>> reader = CarReader(car)
    >>> reader.version, reader.roots
    (1, [Cid('bafkqaaa')])
    >>> list(reader)
    [(Cid('bafkqaaa'), b''), (Cid('bafyqaaa'), b'\\x01')]

    It keeps one section in memory, and the bytes that it has read after it. It returns a block once
    the source has returned its last byte. If the version is 2 it reads the payload, and not the
    index.

    A header longer than `header_limit` bytes, or a section longer than `section_limit`, raises
    `CarError` with the name `CAR_TOO_LONG`. With `verify`, a block whose digest isn't that of its
    CID raises `VerifyError`. After an error the iteration ends.
    """

    version: int
    roots: List[Cid]

    def __init__(
        self,
        source: Union[BinaryIO, BytesLike],
        *,
        verify: bool = False,
        header_limit: int = HEADER_LIMIT,
        section_limit: int = SECTION_LIMIT,
    ):
        file: Any = source if hasattr(source, "read") else io.BytesIO(source)
        # `read1` returns the bytes that are available. `read` may wait for more.
        self._read: Callable[[int], bytes] = getattr(file, "read1", file.read)
        self._window = _Window(verify, header_limit, section_limit)
        while not self._window.open():
            self._fill()
        self.version, self.roots = self._window.version, self._window.roots

    def _fill(self) -> None:
        """Reads the bytes that the window lacks."""
        while self._window.lacks():
            self._window.take(self._read(self._window.size()))

    def __iter__(self) -> Iterator[Tuple[Cid, bytes]]:
        return self

    def __next__(self) -> Tuple[Cid, bytes]:
        window = self._window
        if window.is_closed:
            raise StopIteration
        try:
            while not window.next():
                self._fill()
        except BaseException:
            window.close()
            raise
        if window.section is None:
            raise StopIteration
        return window.section


class AsyncCarReader:
    """Iterates over the blocks of a CAR by `async for`, as pairs of a `Cid` and bytes. `open`
    creates one.

    >>> import asyncio
    >>> async def show(chunks):
    ...     reader = await AsyncCarReader.open(chunks)
    ...     print(reader.version, reader.roots)
    ...     async for cid, block in reader:
    ...         print(cid, block)
    >>> async def chunks():
    ...     yield bytes.fromhex("19a265726f6f747381d82a4500015500006776657273696f6e01")
    ...     yield bytes.fromhex("0401550000050171000001")
    >>> asyncio.run(show(chunks()))
    1 [Cid('bafkqaaa')]
    bafkqaaa b''
    bafyqaaa b'\\x01'

    The limits, the errors and the memory are those of `CarReader`. It returns a block once the
    source has returned its last byte. After an error, or if a task is cancelled while it waits for
    a block, the iteration ends.
    """

    version: int
    roots: List[Cid]

    def __init__(self, read: Callable[[int], Awaitable[bytes]], window: _Window):
        self._read, self._window = read, window
        self.version, self.roots = window.version, window.roots

    @classmethod
    async def open(
        cls,
        source: Any,
        *,
        verify: bool = False,
        header_limit: int = HEADER_LIMIT,
        section_limit: int = SECTION_LIMIT,
    ) -> "AsyncCarReader":
        """Reads the header of a CAR, and returns a reader of its sections. The source has a method
        `read(n)` that returns an awaitable of bytes, like `asyncio.StreamReader`, or it is an
        asynchronous iterable of bytes, like the chunks of an HTTP response."""
        read = _reading(source)
        window = _Window(verify, header_limit, section_limit)
        while not window.open():
            while window.lacks():
                window.take(await read(window.size()))
        return cls(read, window)

    def __aiter__(self) -> AsyncIterator[Tuple[Cid, bytes]]:
        return self

    async def __anext__(self) -> Tuple[Cid, bytes]:
        window = self._window
        if window.is_closed:
            raise StopAsyncIteration
        try:
            while not window.next():
                while window.lacks():
                    window.take(await self._read(window.size()))
        except BaseException:
            window.close()
            raise
        if window.section is None:
            raise StopAsyncIteration
        return window.section


def _reading(source: Any) -> Callable[[int], Awaitable[bytes]]:
    """Returns a function that reads the next bytes of an asynchronous source, none at its end."""
    if hasattr(source, "read"):
        read: Callable[[int], Awaitable[bytes]] = source.read
        return read
    chunks = source.__aiter__()

    async def read_chunk(_size: int) -> bytes:
        async for chunk in chunks:
            if chunk:
                return bytes(chunk)
        return b""

    return read_chunk


# The number of bytes of a CAR of version 2 before its payload.
_FRONT = 51


class CarWriter:
    """Writes a CAR to a binary file that is open for writing: the header with the roots at once, and a
    section for each block. It doesn't close the file.

    >>> import io
    >>> file = io.BytesIO()
    >>> writer = CarWriter(file, [Cid("bafkqaaa")])
    >>> writer.write(Cid("bafkqaaa"), b"")
    >>> CarReader(file.getvalue()).roots
    [Cid('bafkqaaa')]

    A CAR of version 1 is complete after each block, and nothing of it is kept in memory. One of version
    2 has an index of its blocks. For it the file has to be seekable, the CID and the offset of each
    block are kept, and `finish` completes the CAR. So does the end of a `with` block, unless by an
    exception.

    It is for files that wait until they can write. An error of the file is passed on, and may leave a
    part of a section.
    """

    def __init__(self, file: BinaryIO, roots: Iterable[Cid] = (), *, version: int = 1):
        if version not in (1, 2):
            raise ValueError(f"a CAR has version 1 or 2, not {version!r}")
        header = _native.car_header([bytes(root) for root in roots])
        self._file: Any = file
        self._rows: Optional[List[Tuple[bytes, int]]] = None
        self._complete = False
        if version == 2:
            self._start = file.tell()
            self._rows = []
            self._write(bytes(_FRONT))
        self._write(header)
        self._payload_len = len(header)

    def __enter__(self) -> "CarWriter":
        return self

    def __exit__(self, error: Optional[type], *_: object) -> None:
        if error is None:
            self.finish()

    def _write(self, data: BytesLike) -> None:
        # A file without a buffer may take only some of the bytes.
        count = self._file.write(data)
        with memoryview(data).cast("B") as part:
            while count is not None and count < len(part):
                count += self._file.write(part[count:])

    def write(self, cid: Cid, block: BytesLike) -> None:
        """Writes a block with its CID. They are not compared."""
        if self._complete:
            raise ValueError("the CAR is complete: write to a new one")
        with memoryview(block) as view:
            size = view.nbytes
        head = _native.car_section(bytes(cid), size)
        self._write(head)
        self._write(block)
        if self._rows is not None:
            self._rows.append((bytes(cid), self._payload_len))
        self._payload_len += len(head) + size

    def finish(self) -> None:
        """Completes a CAR of version 2: writes the index at its end, and then its first bytes. The file
        is at the end afterwards. Does nothing to a CAR of version 1, or one that is complete.
        """
        if self._rows is None:
            return
        around = _native.car_index(self._rows, self._payload_len)
        self._write(around[_FRONT:])
        self._file.seek(self._start)
        self._write(around[:_FRONT])
        self._file.seek(self._payload_len + len(around) - _FRONT, 1)
        self._rows, self._complete = None, True
