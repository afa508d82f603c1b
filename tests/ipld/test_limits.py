"""Tests of all commands with `--limit` and `--split`."""

from .program import ProgramTest
from .rows import limits


class LimitTest(ProgramTest):
    def test_sections_within_the_limit(self):
        self.check_rows(limits.WITHIN)

    def test_sections_over_the_limit(self):
        self.check_rows(limits.OVER)

    def test_units(self):
        self.check_rows(limits.OF_UNITS)

    def test_invalid_sizes(self):
        self.check_rows(limits.INVALID_SIZES)

    def test_create(self):
        self.check_rows(limits.CREATED)

    def test_create_of_one_block(self):
        self.check_rows(limits.CREATED_OF_ONE_BLOCK)
