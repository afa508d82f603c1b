"""Tests of `ipld car --verify`."""

from .program import ProgramTest
from .rows import car_verify


class CarVerifyTest(ProgramTest):
    def test_valid_cars(self):
        self.check_rows(car_verify.VALID)

    def test_wrong_blocks(self):
        self.check_rows(car_verify.WRONG)

    def test_json(self):
        self.check_rows(car_verify.AS_JSON)
