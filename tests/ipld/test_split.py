"""Tests of `ipld car create --split`, which writes several CARs of a limited size."""

import re

from .folders import OutputTest
from .formats import PAYLOAD_AT, car, car_indexed, cbor, index_of, raw
from .rows import ERROR, Row, fails, message
from .rows.outputs import EXISTS, IS_INPUT, NEW

BLOCKS = [raw(bytes(length)) for length in (10, 200, 1, 2, 3, 90, 4)]
CIDS = [it.cid for it in BLOCKS]
FILES = {f"b{number}": it.data for number, it in enumerate(BLOCKS)}
CREATE = "car create -c raw -o"
INPUTS = " ".join(FILES)
# The bytes of a CAR of version 2 that are not its payload or an entry of its index.
INDEX_FRAME = PAYLOAD_AT + len(index_of([]))


def car_of(form, blocks, roots):
    """Returns the CAR of blocks, with those of the roots that are among them."""
    cids = [it.cid for it in blocks]
    return form([cid for cid in roots if cid in cids], blocks)


def cars_of(limit, form=car, roots=CIDS):
    """Returns the CARs of the blocks, each with as many as fit into the limit, at least one."""
    cars, blocks = [], []
    for block in BLOCKS:
        if blocks and len(car_of(form, [*blocks, block], roots)) > limit:
            cars.append(car_of(form, blocks, roots))
            blocks = []
        blocks.append(block)
    return [*cars, car_of(form, blocks, roots)]


def files_of(front, cars):
    """Returns the new files that contain these CARs."""
    return {f"{front}{number}.car": (NEW, data) for number, data in enumerate(cars)}


def size(blocks, form=car, roots=CIDS):
    return len(car_of(form, blocks, roots))


# The size of a header with one root, which is the least limit.
LEAST = len(car(CIDS[:1], []))
WHOLE = size(BLOCKS)


class SplitTest(OutputTest):
    def check_split(self, limit, changed, name="new.car", options="", folder=None, err=""):
        """Splits a CAR of the blocks. Fails unless the new files are those of `changed`."""
        command = f"{CREATE} {name} {options} --split {limit} {INPUTS}"
        with self.subTest(ipld=command):
            self.check_left(Row(command, "", err), changed, folder or self.new_folder(FILES))

    def test_sizes_and_names(self):
        for limit in (
            LEAST,
            size(BLOCKS[:1]),
            size(BLOCKS[1:2]),
            size(BLOCKS[2:5]),
            size(BLOCKS[2:5]) - 1,
            WHOLE - 1,
            WHOLE,
        ):
            for name, front in ("new.car", "new-"), ("new", "new-"), ("dir/", "dir/"):
                self.check_split(limit, files_of(front, cars_of(limit)), name)

    def test_units(self):
        self.check_split("1K", files_of("new-", cars_of(2**10)))

    def test_roots_in_another_order(self):
        roots = [CIDS[5], CIDS[1], CIDS[2]]
        options = " ".join(f"--root {cid}" for cid in roots)
        for limit in (
            size(BLOCKS[1:2], roots=roots),
            size(BLOCKS[2:6], roots=roots),
            size(BLOCKS[2:6], roots=roots) - 1,
        ):
            changed = files_of("new-", cars_of(limit, roots=roots))
            self.check_split(limit, changed, options=options)

    def test_headers_within_the_limit(self):
        """A CAR has no more roots than its header may have with this limit on sections."""
        limit = len(cbor({"roots": CIDS[:6], "version": 1}))
        for end, options in (6, f"--limit {limit}"), (5, f"--limit {limit - 1}"):
            cars = [car(CIDS[:end], BLOCKS[:end]), car(CIDS[end:], BLOCKS[end:])]
            self.check_split("1G", files_of("new-", cars), options=options)

    def test_indexes(self):
        for limit in (
            size(BLOCKS[1:2], car_indexed),
            size(BLOCKS[2:5], car_indexed),
            size(BLOCKS[2:5], car_indexed) - 1,
            size(BLOCKS, car_indexed) - 1,
            size(BLOCKS, car_indexed),
        ):
            changed = files_of("new-", cars_of(limit, car_indexed))
            self.check_split(limit, changed, options="--version 2")

    def test_limits_that_are_too_small(self):
        for options, least in ("", LEAST), ("--version 2", LEAST + INDEX_FRAME):
            for limit in 1, least - 1:
                row = Row(
                    f"{CREATE} new.car {options} --split {limit} {INPUTS}",
                    "",
                    re.compile(f"error: .*--split {least} .*\n(?s:.*)"),
                    ERROR,
                )
                with self.subTest(ipld=row.command):
                    self.check_left(row, {}, self.new_folder(FILES))

    def test_files_of_an_earlier_run(self):
        folder = self.new_folder({**FILES, "new-1.car": b"there"})
        self.check_left(
            fails(f"{CREATE} new.car --split {LEAST} {INPUTS}", "new-1.car", EXISTS, ERROR),
            {},
            folder,
        )
        self.check_split(
            "1K",
            files_of("new-", cars_of(2**10)),
            folder=folder,
            err=message("new-1.car", "warning: this file is not part of the new CARs"),
        )
        self.check_split(LEAST, files_of("new-", cars_of(LEAST)), options="--force", folder=folder)

    def test_an_input_is_not_overwritten(self):
        folder = self.new_folder({**FILES, "new-0.car": b"hello"})
        self.check_left(
            fails(
                f"{CREATE} new.car --force --split {LEAST} new-0.car", "new-0.car", IS_INPUT, ERROR
            ),
            {},
            folder,
        )
