"""Tests of all commands with DAG-JSON."""

from .program import ProgramTest
from .rows import dag_json


class DagJsonTest(ProgramTest):
    def test_blocks(self):
        self.check_rows(dag_json.BLOCKS)

    def test_invalid_blocks(self):
        self.check_rows(dag_json.INVALID)

    def test_encode_reports_the_same_error(self):
        self.check_rows(dag_json.ENCODED)

    def test_blocks_of_other_codecs(self):
        self.check_rows(dag_json.CODECS)

    def test_cars(self):
        self.check_rows(dag_json.IN_CARS)

    def test_invalid_blocks_in_cars(self):
        self.check_rows(dag_json.INVALID_IN_CARS)
