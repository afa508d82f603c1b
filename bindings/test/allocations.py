"""Makes each allocation fail in turn while values and blocks are made: those of libkombilad, and by
`_testcapi` those of CPython.

usage: python allocations.py

The package is one whose extension module contains failing.c.
"""

import ctypes
import gc
import io
import sys

import kombilad
from kombilad import Cid, _native

LINK = Cid("bafkqaaa")
NESTED = [
    {
        "a": [1 << 40, -(1 << 64), 2.5, "text" * 90, b"bytes", LINK, {"key": {}}],
        "long key " * 9: [[[]]],
    }
]
DEEP = kombilad.decode_dag_cbor(b"\x81" * 40 + b"\xa2\x61b\x01\x61a\x02")
CAR = bytes.fromhex("19a265726f6f747381d82a4500015500006776657273696f6e01 0401550000 050171000001")
LINKED = bytes.fromhex("120b0a0401550000 120161 1801")
NODES = [LINKED + bytes.fromhex("0a026869"), LINKED * 100]
BLOCKS = [kombilad.encode_dag_cbor(value) for value in (NESTED, DEEP, ["x"] * 300)]
LINKS = kombilad.encode_dag_cbor([{"b": LINK, "a": LINK}] * 200)
# A folder with the entry "a", and a file.
FOLDER = LINKED + bytes.fromhex("0a020801")
UNIXFS = {
    Cid.of_block(FOLDER, kombilad.DAG_PB): FOLDER,
    Cid.of_block(b"hello", kombilad.RAW): b"hello",
}
ROOT, FILE = UNIXFS


def pack():
    """Packs a file of two levels, a link, and a sharded folder of both. Returns all blocks."""
    put = []
    packer = kombilad.Packer(
        lambda *block: put.append(block), chunk_size=2, links=2, sharded_above=0
    )
    # Python crashes if an allocation fails while it begins to iterate over a dictionary's items.
    entries = [("a", packer.file(b"foobar\n")), ("b", packer.symlink("a"))]
    return packer.folder(entries, mode=0o755, mtime_ns=1), put


def car(version=1):
    """Returns a CAR."""
    file = io.BytesIO()
    with kombilad.CarWriter(file, [LINK] * 3, version=version) as writer:
        writer.write(LINK, b"")
        writer.write(Cid.of_block(b""), b"")
    return file.getvalue()


def works():
    yield lambda: [Cid(str(LINK)), Cid(bytes(LINK)), Cid.of_block(CAR)]
    yield lambda: [LINK.to_text("base36"), LINK.version, LINK.codec, LINK.hash_code, LINK.digest]
    yield lambda: sorted([LINK, Cid("bafyqaaa"), LINK])
    yield lambda: [kombilad.check(LINKS), kombilad.count_links(LINKS)]
    yield lambda: [kombilad.links(LINKS), kombilad.link_positions(LINKS)]
    yield lambda: [kombilad.canonicalize(LINKS), kombilad.is_canonical(LINKS)]
    for block in BLOCKS:
        yield lambda: kombilad.from_json(kombilad.to_json(block))
    for block in BLOCKS:
        for cids in (Cid, str, bytes):
            yield lambda: kombilad.decode_dag_cbor(block, cids=cids)
            yield lambda: kombilad.get(block, "", cids=cids)
        yield lambda: kombilad.decode_dag_cbor_multi(block * 3)
        yield lambda: kombilad.encode_dag_cbor(kombilad.decode_dag_cbor(block))
    yield lambda: kombilad.get(LINKS, "0/b/x")
    yield lambda: kombilad.decode_car(CAR)
    for node in NODES:
        yield lambda: kombilad.decode_dag_pb(node)
    yield lambda: list(kombilad.list_folder(UNIXFS.get, ROOT))
    yield lambda: kombilad.resolve(UNIXFS.get, ROOT, "a")
    yield lambda: [kombilad.read_node(*it) for it in UNIXFS.items()]
    yield lambda: list(kombilad.read_file(UNIXFS.get, FILE, start=1))
    yield lambda: kombilad.open_file(UNIXFS.get, FILE).read()
    yield pack
    yield car
    yield lambda: car(version=2)


def refused(what, begin, end, most=2000):
    """
    Makes each allocation of the works fail in turn, until they succeed. Prints the number of
    failures.
    """
    failures = 0
    for work in works():
        expected = work()
        for number in range(most):
            begin(number)
            try:
                found = work()
            except MemoryError:
                found = None
            finally:
                end()
            if found is None:
                failures += 1
                continue
            if found != expected:
                sys.exit(f"allocations: another result where allocation {number} fails")
            break
        else:
            sys.exit(f"allocations: {what} fail without an end")
        gc.collect()
    if failures == 0:
        sys.exit(f"allocations: none of {what} failed")
    print(f"allocations: {failures} refused of {what}: ok")


def main():
    library = ctypes.CDLL(_native.__file__)
    fail_after = library.kombilad_test_fail_after
    fail_after.argtypes, fail_after.restype = [ctypes.c_long], None
    refused("libkombilad's allocations", fail_after, lambda: fail_after(-1))
    try:
        import _testcapi
    except ImportError:
        print(
            "allocations: this Python has no _testcapi, so that its own allocations were not refused"
        )
        return
    # All allocations from this number on fail.
    refused(
        "Python's allocations",
        lambda number: _testcapi.set_nomemory(number),
        _testcapi.remove_mem_hooks,
    )


if __name__ == "__main__":
    main()
