"""Content identifiers (CIDs), blocks of DAG-CBOR and DAG-PB, their DAG-JSON, CAR files, and files of
UnixFS, read and written by proved code: the library `libkombilad`.

>>> import kombilad
>>> block = bytes.fromhex("a1646c696e6bd82a450001550000")
>>> kombilad.links(block)
[Cid('bafkqaaa')]

- `Cid` is a CID.
- `links` returns the links of a block, `link_positions` their positions, `count_links` their number.
- `check` raises an error unless bytes are a block. `is_canonical` tests whether the keys of its maps
  are in order, and `canonicalize` puts them in order.
- `decode_dag_cbor` returns the value of a block: dicts, lists, strings, bytes, numbers and CIDs.
  `encode_dag_cbor` returns the block of a value, and `get` the value at a path in a block.
- `to_json` returns the DAG-JSON of a block, and `from_json` the block of a text in DAG-JSON.
- `decode_dag_pb` returns the node of a block of DAG-PB.
- `CarReader` reads the blocks of a CAR file one at a time, and `AsyncCarReader` does so with
  `async for`. `decode_car` returns the values of all blocks of a CAR in memory. `CarWriter` writes a
  CAR. `verify` compares a block with its CID.
- `read_file` returns the bytes of a file of UnixFS, or of a range of it, from blocks that it
  verifies, and `open_file` a binary file. `list_folder` returns the entries of a folder, `resolve`
  the CID at a path, and `read_node` what a block says of a file, a folder or a symbolic link.
  `unpack` writes files and folders to the disk.
- `Packer` makes the blocks of files, folders and symbolic links. `pack` packs those of the disk into a
  CAR.

A block is any object with contiguous bytes, such as `bytes`, `bytearray`, `memoryview` or `mmap`.
It isn't copied, and must not change while a call reads it. If it is `bytes` of 64 KiB or more, the
calls release the interpreter's lock while the library reads it.

>>> decode_dag_cbor(block)
{'link': Cid('bafkqaaa')}
>>> encode_dag_cbor({"link": Cid("bafkqaaa")}) == block
True

Invalid input raises `KombiladError`, and a value that has no block `EncodeError`. Both are a
`ValueError`. A failed allocation raises `MemoryError`.
"""

from ._block import (
    canonicalize,
    check,
    count_links,
    from_json,
    is_canonical,
    link_positions,
    links,
    to_json,
)
from ._car import AsyncCarReader, CarReader, CarWriter, decode_car, verify
from ._cid import DAG_CBOR, DAG_PB, RAW, SHA2_256, Cid
from ._errors import (
    BaseError,
    BlockError,
    CarError,
    CidError,
    EncodeError,
    FileError,
    JsonError,
    KombiladError,
    LimitError,
    MissingBlockError,
    MissingEntryError,
    PackError,
    PathError,
    SymlinkError,
    TextError,
    VerifyError,
)
from ._file import FileReader, open_file, read_file
from ._folder import FolderEntry, list_folder, resolve
from . import _native
from ._node import Node, NodeKind, read_node
from ._pack import Packed, Packer, pack
from ._status import Status
from ._unpack import unpack
from ._values import (
    decode_dag_cbor,
    decode_dag_cbor_multi,
    decode_dag_pb,
    encode_dag_cbor,
    get,
)

__all__ = [
    "DAG_CBOR",
    "DAG_PB",
    "RAW",
    "SHA2_256",
    "AsyncCarReader",
    "BaseError",
    "BlockError",
    "CarError",
    "CarReader",
    "CarWriter",
    "Cid",
    "CidError",
    "EncodeError",
    "FileError",
    "FileReader",
    "FolderEntry",
    "JsonError",
    "KombiladError",
    "LimitError",
    "MissingBlockError",
    "MissingEntryError",
    "Node",
    "NodeKind",
    "PackError",
    "Packed",
    "Packer",
    "PathError",
    "Status",
    "SymlinkError",
    "TextError",
    "VerifyError",
    "canonicalize",
    "check",
    "count_links",
    "decode_car",
    "decode_dag_cbor",
    "decode_dag_cbor_multi",
    "decode_dag_pb",
    "encode_dag_cbor",
    "from_json",
    "get",
    "is_canonical",
    "link_positions",
    "links",
    "list_folder",
    "open_file",
    "pack",
    "read_file",
    "read_node",
    "resolve",
    "to_json",
    "unpack",
    "verify",
    "version",
]

for _name in __all__:
    _public = globals().get(_name)
    if callable(_public):
        _public.__module__ = __name__


def version() -> str:
    """Returns the version of libkombilad.

    >>> version()
    '0.2.0'
    """
    number = _native.version()
    return f"{number >> 16}.{number >> 8 & 255}.{number & 255}"
