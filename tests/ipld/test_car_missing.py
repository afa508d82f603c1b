"""Tests of `ipld car missing`."""

from .program import ProgramTest
from .rows import car_missing


class CarMissingTest(ProgramTest):
    def test_one_car(self):
        self.check_rows(car_missing.ONE_CAR)

    def test_several_cars(self):
        self.check_rows(car_missing.SEVERAL_CARS)

    def test_json(self):
        self.check_rows(car_missing.AS_JSON)

    def test_blocks_under_other_cids(self):
        for given, row in car_missing.UNDER_OTHER_CIDS:
            with self.subTest(ipld=row.command):
                self.check(row, input=given)

    def test_invalid_blocks(self):
        self.check_rows(car_missing.INVALID_BLOCKS)
