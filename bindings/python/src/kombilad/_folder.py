"""Reads folders of UnixFS: their entries, and the entry at a path."""

from typing import Callable, Iterator, NamedTuple, Optional, Tuple

from . import _native
from ._cid import Cid
from ._errors import KombiladError, MissingEntryError
from ._status import BytesLike
from ._walk import Source, block_of, in_block, wanted


class FolderEntry(NamedTuple):
    """An entry of a folder. The `name` is not empty, "." or "..", and has no "/" and no zero byte.
    `tsize` is the size that the link states of its block and all blocks below it, or None. Nothing
    checks it."""

    name: str
    cid: Cid
    tsize: Optional[int]


def entries(walk: object, get: Source) -> Iterator[FolderEntry]:
    """Iterates over the entries of the folder of a walk."""
    while True:
        cid = wanted(walk)
        if cid is None:
            return
        block = block_of(get, cid)
        try:
            found = _native.folder_take(walk, block)
        except KombiladError as error:
            raise in_block(error, cid) from None
        found.reverse()
        while found:
            yield FolderEntry(*found.pop())


def list_folder(get: Callable[[Cid], Optional[BytesLike]], cid: Cid) -> Iterator[FolderEntry]:
    """Iterates over the entries of a folder of UnixFS (IPFS), plain or sharded. `get` returns the
    block of a CID, or None if it is missing. Nobody has to trust it: each block is verified before
    it is read.

    >>> from kombilad import DAG_PB, Cid
    >>> block = bytes.fromhex("120b 0a0401550000 120161 1801 0a020801")
    >>> cid = Cid.of_block(block, DAG_PB)
    >>> list(list_folder({cid: block}.get, cid))
    [FolderEntry(name='a', cid=Cid('bafkqaaa'), tsize=1)]

    A plain folder is one block. Its entries are in the order of the bytes of their names. A sharded
    folder is listed shard by shard: first the entries that a shard itself has, and then those of the
    shards below it. `get` is called for a shard after the entries before it were returned. No name
    comes twice. The blocks of the entries are not read.

    Raises the errors of `read_file`, with the `cid` of the block, and `FileError` if a block is not
    the part of the folder. All entries that were returned before are in the folder. After an error
    the iteration ends.
    """
    return entries(_native.folder_new(bytes(cid)), get)


def _lookup(get: Source, folder: Cid, name: str) -> Optional[Cid]:
    """Returns the CID of an entry, or None if there is none with this name."""
    # As in `from_json`, the library finds a lone surrogate.
    encoded = name.encode("utf-8", "surrogatepass")
    blocks, last = b"", folder
    ends: Tuple[int, ...] = ()
    while True:
        try:
            found = _native.folder_lookup(bytes(folder), encoded, blocks, ends)
        except KombiladError as error:
            raise in_block(error, last) from None
        if found is None:
            return None
        is_entry, cid = found
        last = _native.cid_of(Cid, cid)
        if is_entry:
            return last
        blocks += block_of(get, last)
        ends += (len(blocks),)


def resolve(get: Callable[[Cid], Optional[BytesLike]], cid: Cid, path: str) -> Cid:
    """Returns the CID at a path from a folder of UnixFS (IPFS) on. The path has a "/" between names.
    `get` is as in `list_folder`: each block that it returns is verified. It is called for at most
    eight shards of a sharded folder, and not for the result.

    >>> from kombilad import DAG_PB, Cid
    >>> block = bytes.fromhex("120b 0a0401550000 120161 1801 0a020801")
    >>> cid = Cid.of_block(block, DAG_PB)
    >>> resolve({cid: block}.get, cid, "a")
    Cid('bafkqaaa')
    >>> resolve({cid: block}.get, cid, "b")
    Traceback (most recent call last):
    kombilad.MissingEntryError: there is no entry 'b', in folder bafybeibvejwx47m2ekpu33ec4zi62rclqrs3mghimklf2mps5ybsuxk5gu

    Empty names are skipped, so an empty path leads to the CID itself. "." and ".." are names that no
    folder has. Symbolic links are not followed: a path through one raises `FileError`.

    Raises `MissingEntryError` if a folder has no such entry, `TextError` if a name has a lone
    surrogate, and otherwise the errors of `list_folder`.
    """
    names = [name for name in path.split("/") if name]
    for count, name in enumerate(names, 1):
        found = _lookup(get, cid, name)
        if found is None:
            raise MissingEntryError("/".join(names[:count]), cid)
        cid = found
    return cid
