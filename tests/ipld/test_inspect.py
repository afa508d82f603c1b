"""Tests of `ipld car inspect` and `ipld car roots`."""

from .program import ProgramTest
from .rows import car_inspect


class InspectTest(ProgramTest):
    def test_summaries(self):
        self.check_rows(car_inspect.INSPECTED)

    def test_errors(self):
        self.check_rows(car_inspect.WITH_ERRORS)

    def test_roots(self):
        self.check_rows(car_inspect.ROOTS)
