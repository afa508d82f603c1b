"""Tests of `ipld car --links` and `ipld car --dot`."""

from .program import ProgramTest
from .rows import car_links


class CarLinksTest(ProgramTest):
    def test_links(self):
        self.check_rows(car_links.LINKS)

    def test_graphs(self):
        self.check_rows(car_links.GRAPHS)
