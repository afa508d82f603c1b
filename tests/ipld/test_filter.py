"""Tests of `ipld car filter`."""

from .program import ProgramTest
from .rows import car_filter


class FilterTest(ProgramTest):
    def check_with_input(self, rows):
        for given, row in rows:
            with self.subTest(ipld=row.command):
                self.check(row, input=given)

    def test_blocks_and_their_descendants(self):
        self.check_with_input(car_filter.FILTERED)

    def test_cars_that_are_not_written(self):
        self.check_with_input(car_filter.NOT_FILTERED)
