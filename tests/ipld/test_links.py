"""Tests of `ipld links`."""

from .program import ProgramTest
from .rows import links


class LinksTest(ProgramTest):
    def test_blocks(self):
        self.check_rows(links.BLOCKS)

    def test_several_files(self):
        self.check_rows(links.SEVERAL_FILES)

    def test_invalid_blocks(self):
        self.check_rows(links.INVALID)

    def test_invalid_blocks_as_json(self):
        self.check_rows(links.INVALID_AS_JSON)
