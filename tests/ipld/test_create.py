"""Tests of the CARs that `ipld car create` writes."""

import os

from .blocks import CAR, HELLO, LEAF, TREE
from .formats import car
from .program import ProgramTest
from .rows import ERROR, car_create, fails


class CreateTest(ProgramTest):
    def test_blocks(self):
        self.check_rows(car_create.OF_BLOCKS)

    def test_cars(self):
        self.check_rows(car_create.OF_CARS)

    def test_blocks_and_cars(self):
        self.check_rows(car_create.OF_BLOCKS_AND_CARS)

    def test_roots(self):
        self.check_rows(car_create.ROOTS)

    def test_version_0(self):
        self.check_rows(car_create.V0)

    def test_options_without_effect(self):
        self.check_rows(car_create.WITHOUT_EFFECT)

    def test_names_in_a_list(self):
        for given, row in car_create.FILES_FROM:
            with self.subTest(ipld=row.command, given=given):
                self.check(row, input=given)

    def test_standard_input(self):
        for given, row in car_create.FROM_INPUT:
            with self.subTest(ipld=row.command):
                self.check(row, input=given)

    def test_blocks_that_are_refused(self):
        self.check_rows(car_create.REFUSED)

    def test_unchecked(self):
        self.check_rows(car_create.UNCHECKED)


class ChangedInputTest(ProgramTest):
    """Tests of inputs that change after they were read first, and before they are copied."""

    def check_changed(self, source, before, after):
        """Fails if a CAR is created of an input whose bytes change."""
        path, pipe = self.folder / "changing", self.folder / "pipe"
        path.write_bytes(before)
        os.mkfifo(pipe)
        try:
            with self.started(f"car create -o - {source}:changing raw:pipe") as running:
                # The pipe is opened once the first input was read.
                with self.pipe_to(running, pipe) as given:
                    path.write_bytes(after)
                    given.write(b"last")
                run = self.ended(running)
        finally:
            pipe.unlink()
        self.compare(
            fails("", "standard output", car_create.CHANGED, ERROR, out=None),
            run,
        )

    def test_cars(self):
        last = len(TREE[-1].data)
        for name, after in [
            ("shorter", CAR[:-1]),
            ("without its last block", car([], TREE[:-1])),
            ("another block", CAR[:-last] + bytes(last)),
            ("another CID", car([], [HELLO, *TREE])),
            ("empty", b""),
            ("no CAR", bytes(len(CAR))),
        ]:
            with self.subTest(after=name):
                self.check_changed("car", CAR, after)

    def test_blocks(self):
        for after in (b"", HELLO.data, LEAF.data + b"\xf6"):
            with self.subTest(after=after):
                self.check_changed("dag-cbor", LEAF.data, after)
