"""A program that uses the types of the package. `mypy --strict` accepts it: each line with a
`type: ignore` is an error that mypy has to find.
"""

import array
import io
import mmap
import pathlib
import zipfile
from typing import Any, BinaryIO, Dict, List, Optional, Tuple

import kombilad
from kombilad import (
    CarReader,
    CarWriter,
    Cid,
    EncodeError,
    FileReader,
    FolderEntry,
    KombiladError,
    Node,
    NodeKind,
    Packed,
    Packer,
    libipld,
)


def described(cid: Cid) -> Tuple[int, int, int, bytes]:
    return cid.version, cid.codec, cid.hash_code, cid.digest


def links_of(block: bytes, view: memoryview, mapped: mmap.mmap) -> List[Cid]:
    found: List[Cid] = kombilad.links(block) + kombilad.links(view, levels=3)
    kombilad.check(mapped, values=None)
    kombilad.check(bytearray(block))
    kombilad.check(array.array("B", block))
    return sorted(set(found))


def blocks_of(file: BinaryIO) -> Dict[Cid, bytes]:
    reader = CarReader(file, verify=True)
    roots: List[Cid] = reader.roots
    return {cid: block for cid, block in reader if cid not in roots}


def file_of(blocks: Dict[Cid, bytes], cid: Cid) -> bytes:
    file: FileReader = kombilad.open_file(blocks.get, cid, max_bytes=None)
    with zipfile.ZipFile(io.BufferedReader(file)) as archive:
        names: List[str] = archive.namelist()
    return file.read(len(names)) + b"".join(kombilad.read_file(blocks.get, cid, start=1))


def folder_of(blocks: Dict[Cid, bytes], cid: Cid, path: pathlib.Path) -> Optional[bytes]:
    entries: List[FolderEntry] = list(kombilad.list_folder(blocks.get, cid))
    for name, _, _ in entries:
        cid = kombilad.resolve(blocks.get, cid, name)
    node: Node = kombilad.read_node(cid, blocks[cid])
    kombilad.unpack(blocks.get, cid, path, symlinks="skip", preserve=True)
    kombilad.unpack(blocks.get, cid, "name", symlinks="none")  # type: ignore[arg-type]
    kombilad.resolve(blocks.get, cid, b"a")  # type: ignore[arg-type]
    return node.target if node.kind is NodeKind.SYMLINK else None


def packed(file: BinaryIO, path: pathlib.Path) -> Tuple[Packed, Cid]:
    writer = CarWriter(file, [Cid("bafkqaaa")])
    packer = Packer(writer.write, version=1, raw_leaves=True, sharded_above=None)
    entries: Dict[str, Packed] = {"a": packer.file(b"a"), "b": packer.symlink("a", mode=0o777)}
    packer.file([b"a", bytearray(b"b")], mtime_ns=-1)
    packer.file("text")  # type: ignore[arg-type]
    packer.folder({b"a": entries["a"]})  # type: ignore[arg-type]
    root: Cid = kombilad.pack(path, "out.car", hidden=True)
    return packer.folder(entries.items()), root


def texts_of(cid: Cid) -> List[str]:
    return [str(cid), cid.to_text("base16"), f"{cid:base36}", str(Cid(cid)), str(Cid(bytes(cid)))]


def json_of(block: bytes, text: str) -> Tuple[str, bytes]:
    return kombilad.to_json(block, levels=3), kombilad.from_json(text) + kombilad.from_json(block)


def part_of(block: bytes) -> Tuple[str, Any]:
    try:
        value, rest = kombilad.get(block, "a/0", cids=str, levels=3)
        return rest, value
    except kombilad.PathError as error:
        return error.name, error.place


class Named(Cid):
    pass


def same(block: bytes) -> Named:
    named: Named = Named.of_block(block, codec=kombilad.RAW)
    return Named(named)


def reason(block: bytes) -> str:
    try:
        value: Any = kombilad.decode_dag_cbor(block, cids=str)
        parts: Dict[str, Any] = libipld.decode_cid("bafkqaaa")
        return str((value, parts))
    except KombiladError as error:
        return f"{error.name} {error.status.value} {error.offset}"
    except EncodeError as error:
        return error.name


kombilad.check("text")  # type: ignore[arg-type]
kombilad.links(None)  # type: ignore[arg-type]
kombilad.check(b"", 3)  # type: ignore[misc]
kombilad.to_json("text")  # type: ignore[arg-type]
kombilad.get(b"", b"a")  # type: ignore[arg-type]
kombilad.get(b"", "a", str)  # type: ignore[misc]
kombilad.from_json(7)  # type: ignore[arg-type]
kombilad.decode_dag_cbor(b"", cids=int)  # type: ignore[arg-type]
Cid(7)  # type: ignore[arg-type]
Cid("bafkqaaa") < "bafkqaaa"  # type: ignore[operator]
Cid("bafkqaaa").version = 1  # type: ignore[misc]
