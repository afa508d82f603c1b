"""Packs files, folders and symbolic links of UnixFS into blocks, and those of the system into CARs, as
`ipld pack` does."""

import contextlib
import errno
import functools
import os
import secrets
import shutil
import stat
from typing import (
    Any,
    BinaryIO,
    Callable,
    Dict,
    Iterable,
    Iterator,
    List,
    Mapping,
    NamedTuple,
    Optional,
    Set,
    Tuple,
    Union,
)

from . import _native
from ._car import CarWriter
from ._cid import RAW, Cid
from ._errors import PackError, TextError
from ._status import BytesLike
from ._unpack import new_path, rename_new
from ._walk import limit

# The most bytes of a chunk.
_LONGEST_CHUNK = 64 << 20


class Packed(NamedTuple):
    """A file, a folder or a symbolic link that a `Packer` has packed. `cid` is that of its root.
    `size` is the number of bytes of a file, and 0 for others. `total` is the number of bytes of its
    blocks, which a link to it states as its `tsize`."""

    cid: Cid
    size: int
    total: int


def _attributes(
    mode: Optional[int], mtime_ns: Optional[int]
) -> Tuple[Optional[int], Optional[Tuple[int, int]]]:
    """Returns the mode and the time as the library takes them."""
    if mode is not None and not 0 <= mode < 1 << 32:
        raise ValueError("a mode is from 0 to 2^32 - 1")
    if mtime_ns is None:
        return mode, None
    time = divmod(mtime_ns, 10**9)
    if not -(1 << 63) <= time[0] < 1 << 63:
        raise ValueError("a time is from -2^63 to 2^63 - 1 seconds, in nanoseconds")
    return mode, time


def _pieces(source: Any, size: int) -> Iterable[BytesLike]:
    """Returns the pieces of a source. A file returns this many bytes at a time."""
    pieces: Iterable[BytesLike] = source
    if hasattr(source, "read"):
        pieces = iter(functools.partial(source.read, size), b"")
    else:
        with contextlib.suppress(TypeError):
            pieces = [memoryview(source)]
    return pieces


def _in_order(
    entries: Union[Mapping[str, Packed], Iterable[Tuple[str, Packed]]]
) -> List[Tuple[bytes, Packed]]:
    """Returns the entries of a folder in the order of the UTF-8 of their names."""
    pairs = entries.items() if isinstance(entries, Mapping) else entries
    # As in `resolve`, the library finds a lone surrogate.
    return sorted((name.encode("utf-8", "surrogatepass"), it) for name, it in pairs)


@contextlib.contextmanager
def _freed(packing: object) -> Iterator[object]:
    """Frees what is packed at the end, also if the traceback of an error has a reference to it."""
    try:
        yield packing
    finally:
        _native.pack_free(packing)


class Packer:
    """Packs files, folders and symbolic links of UnixFS (IPFS) into the blocks that `ipfs add` makes.
    It calls `put` with the CID and the bytes of each block as it is made: of a file each leaf, and
    each node after those to which it links, and of a folder the root, and then its shards.

    >>> blocks = {}
    >>> packer = Packer(blocks.__setitem__)
    >>> file = packer.file(b"foobar\\n")
    >>> file
    Packed(cid=Cid('QmRgutAxd8t7oGkSm4wmeuByG6M51wcTso6cubDdQtuEfL'), size=7, total=15)
    >>> folder = packer.folder({"a": file, "b": packer.symlink("a")})
    >>> import kombilad
    >>> [entry.name for entry in kombilad.list_folder(blocks.get, folder.cid)]
    ['a', 'b']

    The options are:

    - `version`: the version of the CIDs, 0 or 1.
    - `raw_leaves`: whether the leaves of files are raw blocks, whose CIDs have version 1. A file with
      a mode or a time has a node as its root.
    - `chunk_size`: the bytes of each leaf of a file, except the last, from 1 to 67,108,864.
    - `links`: the most links of a node of a file, at least 2.
    - `sharded_above`: the bytes of names and CIDs above which a folder is sharded, or None for never.

    `ipfs add --cid-version=1` has the version 1 and raw leaves. Each method takes a `mode` of 32 bits
    and an `mtime_ns`, in nanoseconds since the beginning of 1970, as `read_node` returns them. None
    leaves them out.

    Raises `ValueError` if an option, a mode or a time is out of range, and its subclass `PackError` if
    something can't be packed. An error that `put` or a source raises is passed on. After an error the
    packer can pack other files and folders. A block that was put before it may be unused.
    """

    def __init__(
        self,
        put: Callable[[Cid, bytes], object],
        *,
        version: int = 0,
        raw_leaves: bool = False,
        chunk_size: int = 1 << 18,
        links: int = 174,
        sharded_above: Optional[int] = 1 << 18,
    ):
        if version not in (0, 1):
            raise ValueError("the version is 0 or 1")
        if not 1 <= chunk_size <= _LONGEST_CHUNK:
            raise ValueError("a chunk has from 1 to 67,108,864 bytes")
        self._put, self._chunk_size = put, chunk_size
        self._version, self._sharded_above = version, limit(sharded_above)
        self._layout = version, raw_leaves, links
        # It fails if there are too few links.
        _native.pack_file(*self._layout)

    def _put_all(self, packing: object) -> List[Packed]:
        """Calls `put` with each block that waits, and returns the first and the last of them."""
        ends: List[Packed] = []
        while True:
            found = _native.pack_take(packing)
            if found is None:
                return ends
            cid, size, total, block = found
            self._put(cid, block)
            ends[1:] = [Packed(cid, size, total)]

    def _put_first(self, packing: object) -> Packed:
        """Calls `put` with each block of a folder or a link, and returns the root."""
        with _freed(packing):
            return self._put_all(packing)[0]

    def _add(self, packing: object, chunk: bytearray, piece: BytesLike) -> None:
        """Adds the bytes of a piece to a chunk, and all chunks except the last to the file."""
        with memoryview(piece).cast("B") as part:
            at = 0
            while at < len(part):
                # It isn't the last one, since there are more bytes.
                if len(chunk) == self._chunk_size:
                    _native.pack_chunk(packing, bytes(chunk))
                    self._put_all(packing)
                    chunk.clear()
                end = at + self._chunk_size - len(chunk)
                chunk += part[at:end]
                at = end

    def file(
        self,
        source: Union[BinaryIO, BytesLike, Iterable[BytesLike]],
        *,
        mode: Optional[int] = None,
        mtime_ns: Optional[int] = None,
    ) -> Packed:
        """Packs a file. The source is a binary file that is open for reading, bytes, or an iterable of
        bytes of any lengths. At most one chunk is in memory, next to the bytes that the source returns
        at a time.

        >>> Packer(lambda cid, block: None).file([b"foo", b"", b"bar\\n"]).cid
        Cid('QmRgutAxd8t7oGkSm4wmeuByG6M51wcTso6cubDdQtuEfL')
        """
        attributes = _attributes(mode, mtime_ns)
        chunk = bytearray()
        with _freed(_native.pack_file(*self._layout)) as packing:
            for piece in _pieces(source, self._chunk_size):
                self._add(packing, chunk, piece)
            _native.pack_last_chunk(packing, bytes(chunk), *attributes)
            return self._put_all(packing)[-1]

    def folder(
        self,
        entries: Union[Mapping[str, Packed], Iterable[Tuple[str, Packed]]],
        *,
        mode: Optional[int] = None,
        mtime_ns: Optional[int] = None,
    ) -> Packed:
        """Packs a folder of entries that are packed: a mapping from their names, or pairs, in any
        order.

        >>> packer = Packer(lambda cid, block: None)
        >>> packer.folder({}).cid
        Cid('QmUNLLsPACCz1vLxQVkXqqLX5R1X345qqfHbsf67hvA3Nn')
        >>> packer.folder({"..": packer.file(b"")})
        Traceback (most recent call last):
        kombilad.PackError: the name of an entry is empty, . or .., or has a / or a zero byte: '..'

        Raises `PackError` with the name as its `entry` if it is invalid or not UTF-8, or comes twice,
        and without it if two names of a sharded folder have the same hash.
        """
        attributes = _attributes(mode, mtime_ns)
        listed = _in_order(entries)
        names = b"".join(name for name, _ in listed)
        rows = [(len(name), bytes(it.cid), it.total) for name, it in listed]
        layout = self._version, *attributes, self._sharded_above
        try:
            packing = _native.pack_folder(*layout, names, rows)
        except (PackError, TextError) as error:
            if error.place is None:
                raise
            entry = listed[error.place][0].decode("utf-8", "surrogatepass")
            raise PackError(error.status, error.place, entry) from None
        return self._put_first(packing)

    def symlink(
        self,
        target: Union[str, bytes],
        *,
        mode: Optional[int] = None,
        mtime_ns: Optional[int] = None,
    ) -> Packed:
        """Packs a symbolic link. Raises `PackError` if the target isn't UTF-8.

        >>> Packer(lambda cid, block: None).symlink("foobar").cid
        Cid('QmNgQEdXVdLw79nH2bnxLMxnyWMaXrijfqMTiDVat3iyuz')
        """
        attributes = _attributes(mode, mtime_ns)
        encoded = target.encode("utf-8", "surrogatepass") if isinstance(target, str) else target
        try:
            packing = _native.pack_symlink(self._version, *attributes, encoded)
        except TextError as error:
            raise PackError(error.status) from None
        return self._put_first(packing)


def _utf8(name: str, path: str) -> str:
    """Returns the name or the target that the system has at a path as Python's text of its UTF-8."""
    try:
        return os.fsencode(name).decode()
    except UnicodeDecodeError:
        reason = "the name or the target is not valid UTF-8; rename it"
        raise OSError(errno.EILSEQ, reason, path) from None


def _open(path: str, flags: int) -> int:
    """Opens what was a file, and neither follows a link nor waits for a pipe that is there now."""
    return os.open(path, flags | os.O_NOFOLLOW | os.O_NONBLOCK)


class _Tree:
    """What is packed of the system."""

    def __init__(self, packer: Packer, own_name: str, hidden: bool, preserve: bool):
        self.packer, self.hidden, self.preserve = packer, hidden, preserve
        # The name of the CAR that is being written.
        self.own_name = own_name

    def attributes_of(self, info: os.stat_result) -> Dict[str, Optional[int]]:
        """Returns the mode and the time that are packed. A link has no mode of its own."""
        if not self.preserve:
            return {}
        mode = None if stat.S_ISLNK(info.st_mode) else stat.S_IMODE(info.st_mode)
        return {"mode": mode, "mtime_ns": info.st_mtime_ns}

    def names_in(self, folder: str) -> List[Tuple[str, str]]:
        """Returns the name of each entry that is packed, after its path."""
        paths = ((os.path.join(folder, it), it) for it in os.listdir(folder))
        seen = (it for it in paths if self.hidden or not it[1].startswith("."))
        named = ((path, _utf8(it, path)) for path, it in seen if it != self.own_name)
        return sorted(named, key=lambda it: it[1])

    def pack_one(self, path: str, info: os.stat_result) -> Packed:
        """Packs a file or a symbolic link."""
        if stat.S_ISLNK(info.st_mode):
            target = _utf8(os.readlink(path), path)
            return self.packer.symlink(target, **self.attributes_of(info))
        if stat.S_ISREG(info.st_mode):
            with open(path, "rb", buffering=0, opener=_open) as file:
                info = os.fstat(file.fileno())
                return self.packer.file(file, **self.attributes_of(info))
        reason = "neither a file, a folder nor a symbolic link; leave it out"
        raise shutil.SpecialFileError(errno.EINVAL, reason, path)

    def pack(self, root: str) -> Packed:
        """Packs what is at a path, with all that is in it. A folder is packed after its entries."""
        packed: Dict[str, Packed] = {}
        open_folders: Dict[str, Tuple[List[Tuple[str, str]], os.stat_result]] = {}
        pending = [root]
        while pending:
            path = pending[-1]
            if path in open_folders:
                names, info = open_folders.pop(path)
                entries = {name: packed.pop(below) for below, name in names}
                packed[path] = self.packer.folder(entries, **self.attributes_of(info))
            else:
                info = os.lstat(path)
                if stat.S_ISDIR(info.st_mode):
                    names = self.names_in(path)
                    open_folders[path] = names, info
                    pending += [below for below, _ in reversed(names)]
                    continue
                packed[path] = self.pack_one(path, info)
            pending.pop()
        return packed[root]


class _BlocksOnce:
    """The blocks of a CAR, each once."""

    def __init__(self, writer: CarWriter):
        self._writer = writer
        self._cids: Set[Cid] = set()

    def put(self, cid: Cid, block: bytes) -> None:
        if cid not in self._cids:
            self._cids.add(cid)
            self._writer.write(cid, block)


def pack(
    path: Union[str, "os.PathLike[str]"],
    out: Union[str, "os.PathLike[str]"],
    *,
    version: int = 0,
    raw_leaves: bool = False,
    chunk_size: int = 1 << 18,
    links: int = 174,
    sharded_above: Optional[int] = 1 << 18,
    hidden: bool = False,
    preserve: bool = False,
) -> Cid:
    """Packs the file or the folder at a path, with all that is in it, into a new CAR of version 1 at
    the path `out`, and returns the root. There must be nothing at `out`. `unpack` is the inverse.

    >>> import pathlib, tempfile
    >>> import kombilad
    >>> with tempfile.TemporaryDirectory() as folder:
    ...     path = pathlib.Path(folder)
    ...     _ = (path / "file").write_bytes(b"foobar\\n")
    ...     root = pack(path / "file", path / "out.car")
    ...     with open(path / "out.car", "rb") as car:
    ...         reader = kombilad.CarReader(car)
    ...         print(reader.roots == [root], len(list(reader)))
    True 1

    The root is that of the file or the folder itself. No folder is put around it. The options are
    those of `Packer` and:

    - `hidden`: whether entries are packed if their names begin with a dot.
    - `preserve`: whether permissions and times are packed. A symbolic link has no permissions.

    Symbolic links are packed as links, and not followed. The CAR has each block once, in the order in
    which they are made: a folder after all that is in it. It keeps the CID of each block in memory.

    Raises `OSError` if the system can't read or write. It has the path as its `filename` also if
    something is neither a file, a folder nor a link, if a name or the target of a link isn't UTF-8,
    and if the file at the path changes while it is packed, so that its root has another form. Raises
    `FileExistsError` if something is at `out`, and the errors of `Packer`.

    After an error nothing is left. Until all is complete it is in a file next to `out` whose name
    begins with `.kombilad-`. A process that is killed leaves that file.
    """
    layout: Dict[str, Any] = {
        "version": version,
        "raw_leaves": raw_leaves,
        "chunk_size": chunk_size,
        "links": links,
        "sharded_above": sharded_above,
    }
    # The CID of an empty folder has the form of those of nodes.
    planned = Packer(lambda cid, block: None, **layout).folder({}).cid
    given = os.fsdecode(path)
    info = os.lstat(given)
    if raw_leaves and not preserve and stat.S_ISREG(info.st_mode) and info.st_size <= chunk_size:
        planned = Cid.of_block(b"", RAW)
    above, name = new_path(out)
    own_name = f".kombilad-{secrets.token_hex(8)}"
    temporary = os.path.join(above, os.fsencode(own_name))
    with open(temporary, "xb") as car:
        try:
            blocks = _BlocksOnce(CarWriter(car, [planned]))
            header_len = car.tell()
            packer = Packer(blocks.put, **layout)
            root = _Tree(packer, own_name, hidden, preserve).pack(given).cid
            car.seek(0)
            CarWriter(car, [root])
            if car.tell() != header_len:
                raise OSError(errno.EBUSY, "it changed while it was packed; try again", given)
            car.close()
            rename_new(temporary, os.path.join(above, name), is_folder=False)
        except BaseException:
            with contextlib.suppress(OSError):
                os.unlink(temporary)
            raise
    return root
