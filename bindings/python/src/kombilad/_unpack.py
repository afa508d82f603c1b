"""Writes files and folders of UnixFS as files and folders of the system, as `ipld unpack` does."""

import contextlib
import errno
import os
import pickle
import stat
import tempfile
from typing import IO, Callable, Iterator, List, Literal, NamedTuple, Optional, Tuple, Union

from . import _native
from ._cid import Cid
from ._errors import FileError, SymlinkError
from ._file import Limits, next_piece
from ._folder import FolderEntry, entries
from ._node import Node, NodeKind, read_node
from ._status import BytesLike, Status
from ._walk import Source, block_of, limit

# The rules and the numbers are those of `ipld unpack`. Each entry counts for so many bytes, next to
# its own.
_ENTRY = 4096
# Each block that is read is paid for by bytes that were written, or by entries, except the first
# ones. So blocks without content, linked over and over, end soon.
_BLOCK_COST = 256
_FREE_BLOCKS = 1 << 14
# The most bytes of the target of a symbolic link in Linux.
_LONGEST_TARGET = 4095
# The permissions that a folder's owner needs to remove what is in it.
_OWN = 0o700
# The number of bytes in memory of what is made at the end. More are in a temporary file.
_IN_MEMORY = 1 << 20
# The name in the temporary folder of what is unpacked, if it isn't a folder itself.
_NAME = b"unpacked"


class _Attributes(NamedTuple):
    """The permissions and the time of a file or a folder, as far as they are to be set."""

    mode: Optional[int] = None
    mtime_ns: Optional[int] = None

    def set(self, path: Union[int, bytes]) -> None:
        if self.mtime_ns is not None:
            os.utime(path, ns=(self.mtime_ns, self.mtime_ns))
        if self.mode is not None:
            os.chmod(path, self.mode)


class _Folder(NamedTuple):
    """A folder that isn't complete yet. `path` is its path in the folder at the top."""

    path: str
    entries: Iterator[FolderEntry]
    attributes: _Attributes


class _Blocks:
    """The blocks of a source, as far as they are paid for."""

    def __init__(self, get: Source):
        self._get = get
        self.paid = _FREE_BLOCKS * _BLOCK_COST
        # A block that the next call returns, if it asks for this CID.
        self.held: Optional[Tuple[Cid, BytesLike]] = None

    def __call__(self, cid: Cid) -> Optional[BytesLike]:
        held, self.held = self.held, None
        if held is not None and held[0] == cid:
            return held[1]
        if self.paid < _BLOCK_COST:
            raise FileError(Status.FILE_TOO_MANY_BLOCKS, cid=cid)
        self.paid -= _BLOCK_COST
        return self._get(cid)


def _is_target(target: bytes) -> bool:
    """Returns whether a symbolic link can have this target."""
    try:
        text = target.decode()
    except UnicodeDecodeError:
        return False
    return 0 < len(target) <= _LONGEST_TARGET and "\0" not in text


class _Unpacking:
    """What is being unpacked into a temporary folder."""

    def __init__(
        self,
        blocks: _Blocks,
        top: bytes,
        late: IO[bytes],
        symlinks: str,
        preserve: bool,
        left: int,
        max_depth: int,
    ):
        self.blocks, self.top = blocks, top
        # The links, and the folders with their attributes, which are made and set at the end. The
        # attributes of a folder come after all that is in it.
        self.late = late
        self.symlinks, self.preserve = symlinks, preserve
        self.left, self.max_depth = left, max_depth
        self.folders: List[_Folder] = []
        # The attributes of the folder at the top, if there is one.
        self.attributes: Optional[_Attributes] = None

    def system_path(self, path: str) -> bytes:
        """Returns the path in the system of what has a path in the folder at the top."""
        if self.attributes is None:
            return os.path.join(self.top, _NAME)
        return os.path.join(self.top, path.encode()) if path else self.top

    def attributes_of(self, node: Optional[Node]) -> _Attributes:
        """Returns the attributes in a node. The bits that give a program the rights of its owner are
        left out, and a time before 1970."""
        if node is None or not self.preserve:
            return _Attributes()
        mode = None if node.mode is None else node.mode & 0o777
        is_set = node.mtime_ns is not None and node.mtime_ns >= 0
        return _Attributes(mode, node.mtime_ns if is_set else None)

    def make(self, cid: Cid, path: str) -> None:
        """Makes a file or a folder. The entries of a folder are made next, and a link at the end."""
        block = block_of(self.blocks, cid)
        node = read_node(cid, block) if self.preserve else None
        walk = Limits(self.left).walk(cid)
        self.blocks.held = cid, block
        try:
            piece = next_piece(walk, self.blocks)
        except FileError as error:
            if error.status is not Status.FILE_NOT_FILE:
                raise
            node = node or read_node(cid, block)
            if node.kind is NodeKind.SYMLINK:
                self.make_link(cid, path, node.target or b"")
            elif node.kind in (NodeKind.FOLDER, NodeKind.SHARD):
                self.make_folder(cid, block, path, self.attributes_of(node))
            else:
                raise
        else:
            self.make_file(walk, piece, path, self.attributes_of(node))

    def make_file(
        self, walk: object, piece: Optional[bytes], path: str, attributes: _Attributes
    ) -> None:
        with open(self.system_path(path), "xb") as file:
            while piece is not None:
                file.write(piece)
                self.left -= len(piece)
                self.blocks.paid += len(piece)
                piece = next_piece(walk, self.blocks)
            file.flush()
            attributes.set(file.fileno())

    def make_folder(self, cid: Cid, block: BytesLike, path: str, attributes: _Attributes) -> None:
        if len(self.folders) > self.max_depth:
            raise FileError(Status.FILE_TOO_DEEP, cid=cid)
        if self.attributes is None:
            self.attributes = attributes
        else:
            os.mkdir(self.system_path(path))
        self.blocks.held = cid, block
        listed = entries(_native.folder_new(bytes(cid)), self.blocks)
        self.folders.append(_Folder(path, listed, attributes))

    def make_link(self, cid: Cid, path: str, target: bytes) -> None:
        if not _is_target(target):
            reason = "a symbolic link has 1 to 4,095 bytes of UTF-8 without NUL as its target"
            raise SymlinkError(reason, path, target, cid)
        # The folder at the top is the first of them. A link that is not in a folder leads out.
        is_inside = self.folders and _native.stays_inside(target, len(self.folders) - 1)
        if not is_inside and self.symlinks != "any":
            if self.symlinks == "skip" and self.folders:
                return
            reason = "the symbolic link may lead out of the folder"
            raise SymlinkError(reason, path, target, cid)
        pickle.dump((self.system_path(path), target), self.late)

    def make_all(self, root: Cid) -> None:
        self.make(root, "")
        while self.folders:
            folder = self.folders[-1]
            entry = next(folder.entries, None)
            if entry is not None:
                if self.left < _ENTRY:
                    raise FileError(Status.FILE_TOO_LARGE, cid=entry.cid)
                self.left -= _ENTRY
                self.blocks.paid += _ENTRY
                path = f"{folder.path}/{entry.name}" if folder.path else entry.name
                self.make(entry.cid, path)
            else:
                self.folders.pop()
                if self.folders and self.preserve:
                    pickle.dump((self.system_path(folder.path), folder.attributes), self.late)
        self.finish()

    def finish(self) -> None:
        """Makes the links, and sets the attributes of folders."""
        self.late.seek(0)
        with contextlib.suppress(EOFError):
            while True:
                path, what = pickle.load(self.late)
                if isinstance(what, bytes):
                    os.symlink(what, path)
                else:
                    what.set(path)


def _default_mode(folder: bytes) -> int:
    """Returns the permissions that a new folder gets, by making one in this folder."""
    path = os.path.join(folder, _NAME)
    os.mkdir(path)
    mode = stat.S_IMODE(os.lstat(path).st_mode)
    os.rmdir(path)
    return mode


def _remove(top: bytes) -> None:
    """Removes a folder with all that is in it, also if folders are closed to their owner."""
    pending = [top]
    while pending:
        os.chmod(pending[-1], _OWN)
        with os.scandir(pending[-1]) as scanned:
            found = list(scanned)
        below = [it.path for it in found if it.is_dir(follow_symlinks=False)]
        for it in found:
            if not it.is_dir(follow_symlinks=False):
                os.unlink(it.path)
        if below:
            pending += below
        else:
            os.rmdir(pending.pop())


def rename_new(source: bytes, path: bytes, *, is_folder: bool) -> None:
    """Gives a file or a folder another name, at which nothing must be."""
    # It takes the place of an empty one that is created here, so that nothing else is replaced.
    if is_folder:
        os.mkdir(path)
    else:
        os.close(os.open(path, os.O_WRONLY | os.O_CREAT | os.O_EXCL))
    try:
        os.rename(source, path)
    except BaseException:
        with contextlib.suppress(OSError):
            (os.rmdir if is_folder else os.unlink)(path)
        raise


def _place(unpacking: _Unpacking, path: bytes, default_mode: int) -> None:
    """Gives what was unpacked its name, at which nothing must be."""
    attributes, top = unpacking.attributes, unpacking.top
    if attributes is not None:
        mode = default_mode if attributes.mode is None else attributes.mode
        attributes._replace(mode=mode).set(top)
        rename_new(top, path, is_folder=True)
    else:
        rename_new(os.path.join(top, _NAME), path, is_folder=False)
        with contextlib.suppress(OSError):
            os.rmdir(top)


def new_path(given: Union[str, "os.PathLike[str]"]) -> Tuple[bytes, bytes]:
    """Returns the folder of a path, and the name in it. Raises `FileExistsError` if something is
    there."""
    path = os.fsencode(given)
    path = path.rstrip(b"/") or path
    try:
        os.lstat(path)
    except FileNotFoundError:
        above, name = os.path.split(path)
        if name in (b"", b".."):
            raise
    else:
        raise FileExistsError(errno.EEXIST, os.strerror(errno.EEXIST), given)
    return os.path.realpath(above or b"."), name


def unpack(
    get: Callable[[Cid], Optional[BytesLike]],
    cid: Cid,
    folder: Union[str, "os.PathLike[str]"],
    *,
    symlinks: Literal["inside", "skip", "any"] = "inside",
    preserve: bool = False,
    max_bytes: Optional[int] = 64 << 30,
    max_depth: Optional[int] = 1024,
) -> None:
    """Writes a folder of UnixFS (IPFS) with all that is in it to a new folder, or a file to a new
    file. There must be nothing at the path `folder`. `get` returns the block of a CID, or None if it
    is missing. Nobody has to trust it, or the folder: each block is verified before it is read, and
    nothing outside of the new folder changes.

    >>> import pathlib, tempfile
    >>> from kombilad import Cid
    >>> leaf = b"hello"
    >>> cid = Cid.of_block(leaf, 0x55)
    >>> with tempfile.TemporaryDirectory() as folder:
    ...     path = pathlib.Path(folder) / "new"
    ...     unpack({cid: leaf}.get, cid, path)
    ...     path.read_text()
    'hello'

    Symbolic links are made after all files and folders. A link may lead out of the folder if its
    target is absolute, has ".." after a name, or has too many of them. With `symlinks="inside"` such
    a link is an error. With `"skip"` it is left out, and with `"any"` it is made. `preserve` sets the
    permissions and the times of files and folders. It leaves out the bits that give a program the
    rights of its owner, and times before 1970.

    The limits on what is written are:

    - `max_bytes`: the bytes of files, and 4,096 for each entry of a folder.
    - `max_depth`: the levels of folders below the first one.
    - The blocks: 16,384, and one more for every 256 bytes, of which an entry counts for 4,096.

    The limits on each file are those of `read_file`.

    Raises the errors of `read_file` and `list_folder`, and `FileError` with the name
    `FILE_TOO_LARGE`, `FILE_TOO_DEEP` or `FILE_TOO_MANY_BLOCKS` if a limit is exceeded. Raises
    `SymlinkError` for a link, `FileExistsError` if something is at the path, and another `OSError` if
    the system can't write.

    After an error nothing is left. Until all is complete it is in a folder next to the path whose
    name begins with `.kombilad-`, and only its owner can open it. A process that is killed leaves
    that folder. Other users must not be able to write to the folder above, because they could
    replace that one.
    """
    if symlinks not in ("inside", "skip", "any"):
        raise ValueError('symlinks is one of "inside", "skip" and "any"')
    above, name = new_path(folder)
    top = tempfile.mkdtemp(prefix=b".kombilad-", dir=above)
    try:
        default_mode = _default_mode(top)
        with tempfile.SpooledTemporaryFile(_IN_MEMORY, dir=os.fsdecode(above)) as late:
            unpacking = _Unpacking(
                _Blocks(get), top, late, symlinks, preserve, limit(max_bytes), limit(max_depth)
            )
            unpacking.make_all(cid)
        _place(unpacking, os.path.join(above, name), default_mode)
    except BaseException:
        with contextlib.suppress(OSError):
            _remove(top)
        raise
