"""Tests of blocks that nest deep, of lengths that are too large, of many roots and of memory."""

import re
import resource

from .blocks import LOST, PART
from .formats import DAG_CBOR, RAW, block, car, cbor, cid_of, raw, varint
from .program import ProgramTest
from .rows import CHECK_FAILED, ERROR, Row, fails, lines

# A million lists, each in the one before, and 100,000 maps.
LISTS = b"\x81" * 1_000_000
MAPS = b"\xa2\x61b\x01\x62aa" * 100_000
# So many blocks that the header of a CAR with all of them as roots is over the usual limit.
NUMBERS = 204_700
# The blocks of a CAR of 32 MB, and the most bytes that a run may reserve to copy it.
LARGE = [raw(bytes([number]) * (2 << 20)) for number in range(16)]
MOST_MEMORY = 24 << 20


def little_memory():
    """Lets the program reserve little memory. It is called in the new process."""
    resource.setrlimit(resource.RLIMIT_AS, (MOST_MEMORY, MOST_MEMORY))


class DeepTest(ProgramTest):
    def test_lists_and_maps(self):
        (self.folder / "lists").write_bytes(LISTS + b"\xf6")
        (self.folder / "maps").write_bytes(MAPS + b"\xf6")
        self.check_rows(
            [
                Row("check lists maps", "lists: valid\nmaps: valid\n"),
                Row("links lists"),
                Row("show lists --json", "[" * 1_000_000 + "null" + "]" * 1_000_000 + "\n"),
                Row("show lists 0/0 --json", "[" * 999_998 + "null" + "]" * 999_998 + "\n"),
                Row("show maps --json", '{"aa":' * 100_000 + "null" + ',"b":1}' * 100_000 + "\n"),
            ]
        )

    def test_a_block_of_a_car(self):
        deep = block(DAG_CBOR, LISTS + cbor(LOST.cid))
        (self.folder / "deep.car").write_bytes(car([], [deep]))
        self.check_rows(
            [
                Row("car missing deep.car", lines(LOST.cid), status=CHECK_FAILED),
                Row("car verify deep.car"),
            ]
        )


class LargeTest(ProgramTest):
    def test_a_list_with_a_huge_length(self):
        (self.folder / "endless").write_bytes(b"\x9b" + b"\xff" * 8)
        self.check(
            Row(
                "show endless",
                "",
                re.compile("ipld: endless: not valid DAG-CBOR(?s:.*)"),
                CHECK_FAILED,
            )
        )

    def test_a_section_with_a_huge_length(self):
        whole = car([], [PART])
        (self.folder / "long.car").write_bytes(whole + varint(2**63) + b"x" * 99)
        self.check(
            fails(
                "car verify long.car",
                "long.car",
                f"the section is {2**63} bytes, over the limit (raise it with --limit), "
                f"at byte {len(whole)}",
            )
        )

    def test_many_roots(self):
        blocks = [raw(b"%d" % number) for number in range(NUMBERS)]
        (self.folder / "roots.car").write_bytes(car([], blocks))
        for options in "", "--version 2":
            row = fails(
                f"car create -o new.car {options} car:roots.car",
                "new.car",
                f"the header would be over the limit (roots: {NUMBERS}); "
                "name fewer with --root, or raise --limit",
                ERROR,
            )
            with self.subTest(ipld=row.command):
                self.check(row)
                self.assertEqual(list(self.folder.glob("new*")), [])
        root = blocks[0].cid
        self.check(Row(f"car create -o - --root {root} car:roots.car", car([root], blocks)))


class MemoryTest(ProgramTest):
    def test_the_cid_of_a_large_raw_block(self):
        data = b"".join(it.data for it in LARGE)
        path = self.folder / "large"
        path.write_bytes(data)
        printed = lines(cid_of(RAW, data))
        self.check(Row("cid -c raw large", printed), preexec_fn=little_memory)
        with path.open("rb") as given:
            self.check(Row("cid -c raw -", printed), stdin=given, preexec_fn=little_memory)
        self.check(Row("cid -c raw /dev/stdin", printed), input=data, preexec_fn=little_memory)

    def test_copies_take_little_memory(self):
        large = car([], LARGE)
        path = self.folder / "large.car"
        path.write_bytes(large)
        root = LARGE[0].cid
        for command in (
            f"car create -o new.car --force --root {root} car:large.car",
            f"car create -o new.car --force --root {root} --version 2 car:large.car",
            f"car create -o new.car --force --root {root} car:-",
            f"car filter -o new.car --force large.car {' '.join(str(it.cid) for it in LARGE)}",
            "car index -o new.car --force large.car",
        ):
            with self.subTest(ipld=command[:60]), path.open("rb") as given:
                self.check(Row(command), stdin=given, preexec_fn=little_memory)
                copied = (self.folder / "new.car").read_bytes()
                self.assertTrue(all(it.data in copied for it in LARGE))
