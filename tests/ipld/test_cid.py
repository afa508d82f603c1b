"""Tests of `ipld cid`."""

from .program import ProgramTest
from .rows import cid


class CidTest(ProgramTest):
    def test_files(self):
        self.check_rows(cid.OF_FILES)

    def test_a_folder(self):
        self.check_rows(cid.NOT_READ)

    def test_invalid_blocks(self):
        self.check_rows(cid.INVALID)

    def test_parts(self):
        self.check_rows(cid.PARTS)

    def test_bases(self):
        self.check_rows(cid.BASES)

    def test_hash_functions(self):
        self.check_rows(cid.OF_HASHES)

    def test_codecs(self):
        self.check_rows(cid.OF_CODECS)

    def test_versions(self):
        self.check_rows(cid.VERSIONS)

    def test_bases_of_version_0(self):
        self.check_rows(cid.BASES_OF_V0)
