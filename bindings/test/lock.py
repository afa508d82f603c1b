"""Tests that the package releases the interpreter's lock in the calls for which it is documented,
and holds it in all others. Tests also that two threads are in the library at the same time.

usage: python lock.py

The package is one whose extension module contains lock.c. At each call on a block the library in it
asks CPython whether its thread holds the lock. No time is measured.
"""

import ctypes
import threading
import unittest

import kombilad
from kombilad import Cid, _native

library = ctypes.PyDLL(_native.__file__)
library.kombilad_test_watch.argtypes, library.kombilad_test_watch.restype = [
    ctypes.c_void_p,
    ctypes.c_size_t,
], None
library.kombilad_test_seen.restype = library.kombilad_test_inside.restype = ctypes.c_size_t
HOLDS = ctypes.cast(ctypes.pythonapi.PyGILState_Check, ctypes.c_void_p)

# Of the greatest size with which the lock is held, and of the least with which it is released.
VALUES = ["x" * 65_532, "x" * 65_533]
SMALL, LARGE = map(kombilad.encode_dag_cbor, VALUES)


def calls(work, threads=0):
    """Returns the number of calls without the lock, and the number of calls with it."""
    library.kombilad_test_watch(HOLDS, threads)
    try:
        work()
    finally:
        seen = library.kombilad_test_seen(0), library.kombilad_test_seen(1)
        library.kombilad_test_watch(None, 0)
    return seen


def framed(content):
    """Returns these bytes after their number, as a varint of three bytes."""
    count = len(content)
    return bytes([count & 127 | 128, count >> 7 & 127 | 128, count >> 14]) + content


def car_of(block):
    section = bytes(Cid.of_block(block)) + block
    return bytes.fromhex("19a265726f6f747381d82a4500015500006776657273696f6e01") + framed(section)


def folder_of(name):
    """Returns the block of a folder with one entry, which is 18 bytes longer than its name."""
    link = bytes.fromhex("0a040155000012") + framed(name.encode())
    return b"\x12" + framed(link) + bytes.fromhex("0a020801")


class Lock(unittest.TestCase):
    def test_the_sizes(self):
        self.assertEqual((len(SMALL), len(LARGE)), (65_535, 65_536))

    def test_values(self):
        for call in (
            kombilad.decode_dag_cbor,
            kombilad.decode_dag_cbor_multi,
            lambda block: kombilad.decode_dag_cbor(block, cids=bytes),
        ):
            self.assertEqual(calls(lambda: call(SMALL))[0], 0)
            self.assertEqual(calls(lambda: call(bytearray(LARGE)))[0], 0)
        self.assertEqual(calls(lambda: kombilad.decode_dag_cbor(LARGE))[1], 0)
        # The end of the first block is searched in the first 64 KiB with the lock, and then in all
        # bytes without it.
        self.assertEqual(calls(lambda: kombilad.decode_dag_cbor_multi(LARGE + b"\x01")), (1, 3))
        longer = kombilad.encode_dag_cbor(VALUES[1] + "x")
        self.assertEqual(calls(lambda: kombilad.decode_dag_cbor_multi(longer + b"\x01")), (2, 3))
        self.assertEqual(calls(lambda: kombilad.encode_dag_cbor(VALUES[0])), (0, 1))
        self.assertEqual(calls(lambda: kombilad.encode_dag_cbor(VALUES[1])), (1, 0))

    def test_paths(self):
        for block, without, with_lock in ((SMALL, 0, 2), (LARGE, 2, 0), (bytearray(LARGE), 0, 2)):
            self.assertEqual(calls(lambda: kombilad.get(block, "")), (without, with_lock))
        # The value is small, so it is decoded with the lock.
        block = kombilad.encode_dag_cbor({"a": 1, "b": VALUES[1]})
        self.assertEqual(calls(lambda: kombilad.get(block, "a")), (1, 1))

    def test_digests(self):
        for block, without, with_lock in ((SMALL, 0, 1), (LARGE, 1, 0), (bytearray(LARGE), 0, 1)):
            cid = Cid.of_block(block)
            self.assertEqual(calls(lambda: kombilad.verify(cid, block)), (without, with_lock))
        self.assertEqual(calls(lambda: kombilad.decode_car(car_of(LARGE), verify=True))[1], 0)
        self.assertEqual(calls(lambda: kombilad.decode_car(car_of(SMALL), verify=True))[0], 0)
        self.assertEqual(
            calls(lambda: kombilad.decode_car(bytearray(car_of(LARGE)), verify=True))[0], 0
        )

    def test_calls_that_make_no_value(self):
        for block, without, with_lock in ((SMALL, 0, 2), (LARGE, 2, 0), (bytearray(LARGE), 0, 2)):
            self.assertEqual(
                calls(lambda: (kombilad.check(block), kombilad.is_canonical(block))),
                (without, with_lock),
            )

    def test_files_and_folders(self):
        for kind, size, without, with_lock in (
            (bytes, 65_535, 0, 1),
            (bytes, 65_536, 1, 0),
            (bytearray, 65_536, 0, 1),
        ):
            name = "n" * (size - 18)
            leaf, folder = kind(size), kind(folder_of(name))
            self.assertEqual(len(folder), size)
            cid, root = Cid.of_block(leaf, kombilad.RAW), Cid.of_block(folder, kombilad.DAG_PB)
            get = {cid: leaf, root: folder}.get
            for work in (
                lambda: list(kombilad.read_file(get, cid)),
                lambda: list(kombilad.list_folder(get, root)),
                lambda: kombilad.read_node(cid, leaf),
            ):
                self.assertEqual(calls(work), (without, with_lock))
            # The first call has no blocks. The second has copies, which nobody can change.
            released = int(size >= 65_536)
            found = calls(lambda: kombilad.resolve(get, root, name))
            self.assertEqual(found, (released, 2 - released))

    def test_packing(self):
        packer = kombilad.Packer(lambda cid, block: None, chunk_size=65_536)
        empty = packer.file(b"")
        for size, without, with_lock in ((65_535, 0, 1), (65_536, 1, 0), (65_537, 1, 1)):
            self.assertEqual(calls(lambda: packer.file(bytes(size))), (without, with_lock))
        for size, without, with_lock in ((65_535, 0, 1), (65_536, 1, 0)):
            entries = {"n" * size: empty}
            self.assertEqual(calls(lambda: packer.folder(entries)), (without, with_lock))

    def test_two_threads_are_in_the_library_at_once(self):
        for work in (
            lambda: self.assertEqual(kombilad.decode_dag_cbor(LARGE), VALUES[1]),
            lambda: self.assertEqual(kombilad.encode_dag_cbor(VALUES[1]), LARGE),
            lambda: kombilad.verify(Cid.of_block(LARGE), LARGE),
            lambda: kombilad.check(LARGE),
        ):
            threads = [threading.Thread(target=work) for _ in range(2)]
            library.kombilad_test_watch(HOLDS, 2)
            for thread in threads:
                thread.start()
            for thread in threads:
                thread.join()
            self.assertEqual(library.kombilad_test_inside(), 2)
            library.kombilad_test_watch(None, 0)


if __name__ == "__main__":
    unittest.main()
