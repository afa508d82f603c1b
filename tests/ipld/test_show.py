"""Tests of `ipld show`."""

import shutil
import subprocess

from .blocks import EMPTY
from .program import ProgramTest
from .rows import lines, show, show_car


class ShowTest(ProgramTest):
    """Tests of blocks."""

    def test_values(self):
        self.check_rows(show.VALUES)

    def test_paths(self):
        self.check_rows(show.PATHS)

    def test_paths_through_links(self):
        self.check_rows(show.PATHS_THROUGH_LINKS)

    def test_several_files(self):
        self.check_rows(show.SEVERAL_FILES)

    def test_characters(self):
        self.check_rows(show.CHARACTERS)

    def test_levels(self):
        self.check_rows(show.LEVELS)

    def test_invalid_blocks(self):
        self.check_rows(show.INVALID)

    def test_blocks_of_other_codecs(self):
        self.check_rows(show.CODECS)

    def test_jq_reads_dag_json(self):
        jq = shutil.which("jq")
        self.assertIsNotNone(jq, "jq is missing: .ci/needs programs lists how to install it")
        run = self.run_program("show value.cbor --json")
        read = subprocess.run([jq, "-r", '.aa[0]["/"]'], input=run.out, stdout=subprocess.PIPE)
        self.assertEqual(read.stdout.decode(), lines(EMPTY.cid))


class ShowCarTest(ProgramTest):
    """Tests of paths in CARs."""

    def test_found(self):
        self.check_rows(show_car.FOUND)

    def test_not_found(self):
        self.check_rows(show_car.NOT_FOUND)

    def test_other_options(self):
        self.check_rows(show_car.OTHER_OPTIONS)

    def test_odd_cars(self):
        self.check_rows(show_car.ODD_CARS)

    def test_truncated_cars(self):
        self.check_rows(show_car.TRUNCATED)
