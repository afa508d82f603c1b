"""Tests of a CAR that is cut at each byte, and of one with each byte changed."""

from . import damaged
from .blocks import CAR
from .program import ProgramTest
from .rows import CHECK_FAILED, DONE, Row, lines


class DamagedCarTest(ProgramTest):
    def test_a_car_that_is_cut(self):
        for end in range(len(CAR)):
            (self.folder / "beginning").write_bytes(CAR[:end])
            blocks, error = damaged.read(CAR[:end])
            err = damaged.message_about("beginning", error)
            missing = [] if error else damaged.missing(blocks)
            with self.subTest(size=end):
                self.check_rows(
                    [
                        Row("car verify beginning", "", err, CHECK_FAILED if error else DONE),
                        Row(
                            "car missing beginning",
                            lines(*missing),
                            err,
                            CHECK_FAILED if error or missing else DONE,
                        ),
                    ]
                )

    def test_a_car_with_a_changed_byte(self):
        for at in range(len(CAR)):
            data = CAR[:at] + bytes([CAR[at] ^ 0x41]) + CAR[at + 1 :]
            (self.folder / "changed").write_bytes(data)
            blocks, error = damaged.read(data)
            err = damaged.message_about("changed", error)
            reports, wrong, not_computed = damaged.wrong_digests(blocks)
            known = CHECK_FAILED if error or wrong else DONE
            with self.subTest(changed=at):
                self.check_rows(
                    [
                        Row(
                            "car verify changed",
                            lines(*reports),
                            err,
                            CHECK_FAILED if not_computed else known,
                        ),
                        Row("car verify --known changed", lines(*reports), err, known),
                    ]
                )
