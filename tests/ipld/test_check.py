"""Tests of `ipld check`."""

import json
import re

from .blocks import EMPTY, NODE
from .formats import cbor, json_of
from .program import ProgramTest
from .rows import CHECK_FAILED, check

VALUE = [EMPTY.cid, {"a": b"x", "bc": [1000, "\u00e9"]}, 1.5]
# A block of each codec that is cut and changed at each byte. The text has blanks.
WHOLE = {
    "dag-cbor": cbor(VALUE),
    "dag-pb": NODE.data,
    "dag-json": json.dumps(json_of(VALUE)).encode(),
}


def field_ends(node):
    """Returns the offsets at which the fields of a node end, each with less than 128 bytes."""
    ends, at = set(), 0
    while at < len(node):
        at += 2 + node[at + 1]
        ends.add(at)
    return ends


class CheckTest(ProgramTest):
    def test_dag_cbor(self):
        self.check_rows(check.CBOR)

    def test_canonical_dag_cbor(self):
        self.check_rows(check.CANONICAL)

    def test_dag_pb(self):
        self.check_rows(check.PB)

    def test_json(self):
        self.check_rows(check.AS_JSON)

    def test_invalid_blocks(self):
        self.check_rows(check.INVALID)

    def test_invalid_blocks_as_json(self):
        self.check_rows(check.INVALID_AS_JSON)

    def test_other_files(self):
        self.check_rows(check.HINTS)

    def check_files(self, codec, blocks):
        """
        Writes blocks to files, and checks these with one command line. Returns the numbers of the
        blocks that are valid, the lines of standard error, and the status.
        """
        names = [f"{codec}.{number}" for number in range(len(blocks))]
        for name, data in zip(names, blocks):
            (self.folder / name).write_bytes(data)
        run = self.run_program(["check", "-c", codec, *names])
        valid = re.findall(rf"^{codec}\.(\d+): valid$", run.out.decode(), re.M)
        self.assertEqual(len(valid), len(run.out.splitlines()))
        return {int(number) for number in valid}, run.err.decode().splitlines(), run.status

    def test_a_block_that_is_cut(self):
        for codec, whole in WHOLE.items():
            with self.subTest(codec=codec):
                valid, errors, _ = self.check_files(
                    codec, [whole[:end] for end in range(len(whole))]
                )
                # A node may end after each field.
                expected = {0, *field_ends(whole)} - {len(whole)} if codec == "dag-pb" else set()
                self.assertEqual(valid, expected)
                self.assertEqual(len(errors), len(whole) - len(expected))

    def test_a_block_with_a_changed_byte(self):
        for codec, whole in WHOLE.items():
            with self.subTest(codec=codec):
                changed = [
                    whole[:at] + bytes([whole[at] ^ 0x41]) + whole[at + 1 :]
                    for at in range(len(whole))
                ]
                valid, errors, status = self.check_files(codec, changed)
                places = [
                    int(at or byte)
                    for at, byte in re.findall(
                        r" (?:at|from) byte (\d+)$|\(byte (\d+)\): ", "\n".join(errors), re.M
                    )
                ]
                # Each is a valid block, or has an error at one of its bytes.
                self.assertEqual(len(valid) + len(places), len(whole))
                self.assertLessEqual(max(places), len(whole))
                self.assertEqual(status, CHECK_FAILED)
