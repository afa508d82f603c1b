"""
Tests texts in each base: the vectors of the multibase specification, and random bytes, encoded and
decoded.
"""

import base64
import random
import unittest

from kombilad import Cid, libipld

# "yes mani !" in each base, from the specification's tests.
VECTORS = [
    "\0yes mani !",
    "001111001011001010111001100100000011011010110000101101110011010010010000000100001",
    "7362625631006654133464440102",
    "9573277761329450583662625",
    "f796573206d616e692021",
    "F796573206D616E692021",
    "bpfsxgidnmfxgsibb",
    "BPFSXGIDNMFXGSIBB",
    "vf5in683dc5n6i811",
    "VF5IN683DC5N6I811",
    "cpfsxgidnmfxgsibb",
    "CPFSXGIDNMFXGSIBB",
    "tf5in683dc5n6i811",
    "TF5IN683DC5N6I811",
    "hxf1zgedpcfzg1ebb",
    "k2lcpzo5yikidynfl",
    "K2LCPZO5YIKIDYNFL",
    "Z7Pznk19XTTzBtx",
    "z7paNL19xttacUY",
    "meWVzIG1hbmkgIQ",
    "MeWVzIG1hbmkgIQ==",
    "ueWVzIG1hbmkgIQ",
    "UeWVzIG1hbmkgIQ==",
]
# The same with zero bytes before it.
ZEROS = [
    "90573277761329450583662625",
    "k02lcpzo5yikidynfl",
    "z17paNL19xttacUY",
    "Z17Pznk19XTTzBtx",
    "f00796573206d616e692021",
    "bab4wk4zanvqw42jaee",
]


class Multibase(unittest.TestCase):
    def test_the_specifications_vectors(self):
        for text in VECTORS:
            self.assertEqual(libipld.encode_multibase(text[0], b"yes mani !"), text)
            self.assertEqual(libipld.decode_multibase(text), (text[0], b"yes mani !"))
        for text in ZEROS:
            self.assertEqual(libipld.encode_multibase(text[0], b"\0yes mani !"), text)
            self.assertEqual(libipld.decode_multibase(text), (text[0], b"\0yes mani !"))

    def test_bytes_come_back(self):
        for code in (text[0] for text in VECTORS[1:]):
            for length in list(range(12)) + [64, 300]:
                data = bytes(
                    random.choice([0, 0, 1, 255, random.randrange(256)]) for _ in range(length)
                )
                self.assertEqual(
                    libipld.decode_multibase(libipld.encode_multibase(code, data)), (code, data)
                )
        self.assertEqual(
            libipld.encode_multibase("c", b"a"), "c" + base64.b32encode(b"a").decode().lower()
        )

    def test_what_is_wrong_is_named(self):
        for text in (
            "",
            "?",
            "🚀",
            "b1",
            "ba",
            "bab",
            "B" + "a" * 8,
            "cme",
            "f0",
            "f0G",
            "f 00",
            "F0a",
            "z0",
            "zI",
            "02",
            "00 1",
            "78",
            "9a",
            "k!",
            "kA",
            "ueQ==",
            "Me",
            "m-A",
            "u+A",
            "Uöö==",
            "0_1",
            "7-1",
            "901_2",
        ):
            with self.assertRaises(libipld.MultibaseError, msg=text):
                libipld.decode_multibase(text)
        for code, data in (
            ("?", b""),
            ("", b""),
            ("\0", b"\xff"),
            ("z", bytes(5000)),
            ("k", bytes(5000)),
            ("9", bytes(5000)),
        ):
            self.assertRaises(libipld.MultibaseError, libipld.encode_multibase, code, data)
        self.assertRaises(libipld.MultibaseError, libipld.decode_multibase, "z" + "1" * 20_000)
        self.assertRaises(libipld.MultibaseError, libipld.decode_multibase, "9" + "7" * 20_000)

    def test_cids_in_the_shapes_of_libipld(self):
        text = "bafyreigbtj4x7ip5legnfznufuopl4sg4knzc2cof6duas4b3q2fy6swua"
        cid = Cid(text)
        parts = {
            "version": 1,
            "codec": 0x71,
            "hash": {"code": 0x12, "size": 32, "digest": cid.digest},
        }
        self.assertEqual((libipld.decode_cid(text), libipld.decode_cid(bytes(cid))), (parts, parts))
        self.assertEqual((libipld.encode_cid(bytes(cid)), libipld.encode_cid(text)), (text, text))
        for wrong in ("", "b", b"", b"\x01"):
            self.assertRaises(ValueError, libipld.decode_cid, wrong)
            self.assertRaises(ValueError, libipld.encode_cid, wrong)
        value = {"a": [bytes(cid), b"bytes", 1, None, 1.5, {"b": "text"}]}
        block = libipld.encode_dag_cbor(value)
        self.assertEqual(libipld.decode_dag_cbor(block), value)
        self.assertEqual(libipld.decode_dag_cbor_multi(block + block), [value, value])
        for wrong in (b"", b"\x81", b"\x18\x01", b"\x01\x01"):
            self.assertRaises(ValueError, libipld.decode_dag_cbor, wrong)
        self.assertRaises(ValueError, libipld.encode_dag_cbor, {1: 2})


if __name__ == "__main__":
    unittest.main()
