"""Tests of `ipld car salvage` with damaged CARs, made of whole sections and other bytes."""

import errno
import re
import resource
import time

from . import damaged
from .blocks import CHAIN, CUT_CHAIN, FAR, LEAF, LONG, NEAR, PART, TOP
from .formats import Block, car, car_indexed, framed, raw, varint
from .program import ProgramTest
from .rows import CHECK_FAILED, DONE, ERROR, Row, fails, json_lines, system_error
from .rows.outputs import EXISTS, IS_INPUT, NO_FILE

# Blocks by each hash function that tells where a section is, and the header before them.
BLOCKS = [LEAF, LONG, TOP, CHAIN, PART]
ROOTS = [TOP.cid]
HEADER = car(ROOTS, [])
V2 = car_indexed(ROOTS, BLOCKS)
V2_FRONT, V2_INDEX = V2[: 51 + len(HEADER)], V2[51 + len(car(ROOTS, BLOCKS)) :]
# The reasons that are printed.
DIGEST = "the block of .* has another digest"
CID = "the section does not begin with a CID: .*"
EMPTY = "the section length is zero at byte .*"
CUT = "truncated: the section that begins at byte .* is cut off at byte .*"
LIMIT = r"the section is over the limit \(raise it with --limit\)"
# The blocks of a CAR of 32 MB, and the most bytes that a run may reserve for it.
LARGE = [raw(bytes([number]) * (2 << 20)) for number in range(16)]
MOST_MEMORY = 64 << 20
# Bytes that begin as a section with a long block at every eighth, and the time for them in seconds.
HOSTILE = (varint(3 << 20) + b"\1\x55\x12\x20") * (1 << 19)
MOST_SECONDS = 60


def section(one):
    return framed(one.cid + one.data)


def changed(data, at):
    return data[:at] + bytes([data[at] ^ 0x41]) + data[at + 1 :]


WHOLE = section(LONG)
SIZE = len(WHOLE)
# The section of LONG with other lengths. The second ends with the next section.
WRONG_LENGTHS = [
    (varint(length) + WHOLE[1:], why)
    for length, why in [
        (20, CID),
        (SIZE - 1 + len(section(TOP)), DIGEST),
        (SIZE + 30, DIGEST),
        (5000, CUT),
        (9 << 20, CUT),
        (2**63, CUT),
        (0, EMPTY),
    ]
]
# What takes the place of a section, and the reason that is printed.
DAMAGES = WRONG_LENGTHS + [
    (b"\xff" * 9 + b"\2" + WHOLE[1:], r"the section length is 2\^64 or more at byte .*"),
    (changed(WHOLE, SIZE - 1), DIGEST),
    (changed(WHOLE, 1), CID),
    (WHOLE[:40] + WHOLE[49:], DIGEST),
    (WHOLE[:40] + b"put in" + WHOLE[40:], DIGEST),
    (WHOLE[5:], ".*"),
    (changed(WHOLE, 70) + changed(section(PART), 40), DIGEST),
    (b"\x2a" * 1000 + bytes(1000), CID),
    (bytes(number * number % 251 for number in range(100_000)), EMPTY),
    (b"\x2a" + section(NEAR), CID),
    (b"\x2a" + section(FAR), CID),
    (section(CUT_CHAIN), "the digest in .* is truncated, which is not supported"),
    (changed(section(NEAR), 9), DIGEST),
]


def little_memory():
    """Lets the program reserve little memory. It is called in the new process."""
    resource.setrlimit(resource.RLIMIT_AS, (MOST_MEMORY, MOST_MEMORY))


class SalvageTest(ProgramTest):
    def check_pieces(self, *pieces, roots=ROOTS, unknown=0, options="", **given):
        """Salvages a file of pieces: a block that has to be found, a pair of damaged bytes and the
        reason that has to be printed, or other bytes, such as a header."""
        data, ranges, kept = b"", [], {}
        for piece in pieces:
            if isinstance(piece, Block):
                data += section(piece)
                kept.setdefault(piece.cid, piece)
            elif isinstance(piece, bytes):
                data += piece
            else:
                ranges.append((len(data), *piece))
                data += piece[0]
        (self.folder / "damaged.car").write_bytes(data)
        run = self.run_program(f"car salvage damaged.car -o out.car --force {options}", **given)
        left = sum(len(it) for _, it, _ in ranges)
        out = [
            rf"bytes {at} to {at + len(it) - 1}: {why}\n" if it else rf"byte {at}: {why}\n"
            for at, it, why in ranges
        ]
        out += rf"blocks written: {len(kept)} \(unverified: {unknown}\), bytes left: {left}\n"
        status = CHECK_FAILED if ranges or unknown else DONE
        self.compare(Row("", re.compile("".join(out)), "", status), run)
        self.assertEqual((self.folder / "out.car").read_bytes(), car(roots, kept.values()))

    def test_whole(self):
        self.check_pieces(HEADER, *BLOCKS)
        self.check_pieces(HEADER)
        self.check_pieces(V2_FRONT, *BLOCKS, V2_INDEX)
        self.check_pieces(HEADER, NEAR, *BLOCKS, NEAR, PART)
        self.check_pieces(HEADER, LEAF, FAR, PART, FAR, unknown=1)

    def test_a_damage_between_sections(self):
        for piece in DAMAGES:
            with self.subTest(damage=piece[0][:99]):
                self.check_pieces(HEADER, LEAF, piece, TOP, CHAIN, PART)
                self.check_pieces(HEADER, piece, TOP, NEAR, LEAF)
                self.check_pieces(HEADER, TOP, piece, LONG, FAR, (b"\0", EMPTY), *BLOCKS, unknown=1)

    def test_a_damaged_header(self):
        pieces = [changed(HEADER, at) for at in (0, 1, 3, 12, len(HEADER) - 1)]
        for piece in [*pieces, HEADER[5:], b"neither\n", b""]:
            with self.subTest(header=piece):
                self.check_pieces((piece, "not a CAR.*"), *(BLOCKS if piece else []), roots=[])

    def test_a_damaged_header_of_version_2(self):
        after = (V2_INDEX, ".*")
        for at in 0, 5, 10, 27, 30:
            with self.subTest(changed=at):
                self.check_pieces((changed(V2_FRONT, at), ".*"), *BLOCKS, after, roots=[])
        # The payload's size by the header: none, too little at a section's end, and too much.
        for size in 0, len(HEADER + section(LEAF)), 10_000:
            with self.subTest(size=size):
                front = V2_FRONT[:35] + size.to_bytes(8, "little") + V2_FRONT[43:]
                piece, roots = (front, ROOTS) if size else ((front, ".*"), [])
                self.check_pieces(piece, *BLOCKS, after, roots=roots)
        self.check_pieces(V2_FRONT, LEAF, (b"", "truncated: the payload should be .*"))

    def test_a_changed_byte(self):
        for number, whole in enumerate(map(section, BLOCKS)):
            for at in range(len(whole)):
                piece = changed(whole, at)
                blocks, error = damaged.read(HEADER + piece)
                _, wrong, unknown = damaged.wrong_digests(blocks)
                is_found = not error and not wrong and len(blocks) == 1
                found = Block(*blocks[0][1:]) if is_found else (piece, ".*")
                with self.subTest(block=number, changed=at):
                    pieces = [*BLOCKS[:number], found, *BLOCKS[number + 1 :]]
                    self.check_pieces(HEADER, *pieces, unknown=int(is_found and unknown))

    def test_a_cut_end(self):
        data = b"".join(map(section, BLOCKS))
        ends = [len(b"".join(map(section, BLOCKS[:count]))) for count in range(len(BLOCKS))]
        for end in range(len(data)):
            count = sum(it <= end for it in ends) - 1
            cut = data[ends[count] : end]
            with self.subTest(end=end):
                self.check_pieces(HEADER, *BLOCKS[:count], *([(cut, CUT)] if cut else []))

    def test_the_limit(self):
        options = f"--limit {len(TOP.cid + TOP.data) - 1}"
        self.check_pieces(HEADER, PART, (section(TOP), LIMIT), LEAF, options=options)
        self.check_pieces(HEADER, PART, (varint(9 << 20) + bytes(9 << 20), LIMIT), LEAF)

    def test_options_and_streams(self):
        begin = car(ROOTS, [LEAF])
        given, at, saved = begin + b"\0" + section(PART), len(begin), begin + section(PART)
        (self.folder / "damaged.car").write_bytes(given)
        why = f"the section length is zero at byte {at}"
        lines = f"bytes {at} to {at}: {why}\nblocks written: 2 (unverified: 0), bytes left: 1\n"
        objects = json_lines(
            {"offset": at, "size": 1, "message": why}, {"blocks": 2, "unverified": 0, "left": 1}
        )
        other = car([PART.cid, LEAF.cid], [LEAF, PART])
        roots = f"--root {PART.cid} --root {LEAF.cid}"
        command = "car salvage -o"
        self.check_rows(
            [
                Row(f"{command} - damaged.car", saved, lines, CHECK_FAILED),
                Row(f"{command} - --json damaged.car", saved, objects, CHECK_FAILED),
                Row(f"{command} - {roots} damaged.car", other, lines, CHECK_FAILED),
                Row(f"{command} new.car damaged.car", lines, "", CHECK_FAILED),
                Row(f"{command} new.car --force --json damaged.car", objects, "", CHECK_FAILED),
                fails(f"{command} new.car damaged.car", "new.car", EXISTS, ERROR),
                fails(f"{command} damaged.car --force damaged.car", "damaged.car", IS_INPUT, ERROR),
                fails(f"{command} new.car --force no-such", "no-such", NO_FILE, ERROR),
                fails(
                    f"{command} /dev/full damaged.car",
                    "/dev/full",
                    system_error(errno.ENOSPC),
                    ERROR,
                    out=lines.splitlines(keepends=True)[0],
                ),
            ]
        )
        for file in "-", "/dev/stdin":
            self.check(Row(f"{command} - {file}", saved, lines, CHECK_FAILED), input=given)

    def test_a_large_file(self):
        damage = changed(section(LARGE[1]), 1 << 20), DIGEST
        self.check_pieces(HEADER, LARGE[0], damage, *LARGE[2:], preexec_fn=little_memory)

    def test_a_hostile_file(self):
        begun = time.monotonic()
        gave_up = DIGEST + "; the search gave up some blocks from byte .* on"
        self.check_pieces(HEADER, PART, (HOSTILE, gave_up), LEAF)
        self.assertLess(time.monotonic() - begun, MOST_SECONDS)
