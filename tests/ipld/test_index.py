"""Tests of all commands with the index of a CAR of version 2."""

from .program import ProgramTest
from .rows import index


class IndexTest(ProgramTest):
    def test_right_indexes(self):
        self.check_rows(index.RIGHT)

    def test_entries_that_are_missing(self):
        self.check_rows(index.LACKS_ENTRIES)

    def test_entries_that_are_wrong(self):
        self.check_rows(index.WRONG_ENTRIES)

    def test_wrong_digests(self):
        self.check_rows(index.WRONG_DIGESTS)

    def test_invalid_indexes(self):
        self.check_rows(index.NOT_VALID)

    def test_entries_that_are_missing_or_repeated(self):
        for content, row in index.NUMBER_OF_ENTRIES:
            with self.subTest(ipld=row.command, expected=row.out):
                (self.folder / "new.car").write_bytes(content)
                self.check(row)

    def test_create(self):
        self.check_rows(index.CREATED)

    def test_index(self):
        self.check_rows(index.INDEXED_COPIES)
        for given, row in index.INDEXED_INPUT:
            with self.subTest(ipld=row.command):
                self.check(row, input=given)
