"""Tests of arguments that are wrong, and of the version."""

import pathlib

from .program import ProgramTest
from .rows import ERROR, Row, arguments, invalid_car, names

VERSION = pathlib.Path(__file__).resolve().parents[2] / "VERSION"


class ArgumentsTest(ProgramTest):
    def test_arguments_that_are_refused(self):
        for command, part in arguments.REFUSED:
            with self.subTest(ipld=command):
                run = self.run_program(command)
                self.assertIn(part, run.err.decode())
                self.assertEqual((run.out, run.status), (b"", ERROR))

    def test_empty_names(self):
        self.check_rows(names.EMPTY_NAMES)

    def test_texts_that_are_not_cids(self):
        self.check_rows(names.NOT_CIDS)

    def test_files_that_are_not_cars(self):
        self.check_rows(invalid_car.INVALID)

    def test_a_folder_as_a_car(self):
        self.check_rows(invalid_car.FOLDER)

    def test_version(self):
        self.check(Row("--version", f"ipld {VERSION.read_text().strip()}\n"))
