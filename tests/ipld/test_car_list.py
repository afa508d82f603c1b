"""Tests of the lists of blocks of `ipld car`, and of its progress."""

import re
import time

from .formats import car, raw, varint
from .program import SECONDS_FOR_A_RUN, ProgramTest
from .rows import DONE, car_list, message

# While nobody reads the output, the program waits. In this time it has to report at least once.
SECONDS_TO_WAIT = 2.5


class CarListTest(ProgramTest):
    def test_blocks(self):
        self.check_rows(car_list.BLOCKS)

    def test_truncated_cars(self):
        self.check_rows(car_list.TRUNCATED)

    def test_json(self):
        self.check_rows(car_list.AS_JSON)

    def test_invalid_blocks(self):
        self.check_rows(car_list.INVALID_BLOCKS)

    def test_other_files(self):
        self.check_rows(car_list.HINTS)

    def test_progress(self):
        self.check_rows(car_list.PROGRESS)

    def test_progress_every_second(self):
        blocks = [raw(varint(number)) for number in range(20_000)]
        whole = car([], blocks)
        (self.folder / "many.car").write_bytes(whole)
        begun = time.monotonic()
        with self.started("car list --progress many.car") as running:
            time.sleep(SECONDS_TO_WAIT)
            run = self.ended(running)
        *_, last = run.err.decode().splitlines(keepends=True)
        self.assertEqual(last, message("many.car", f"{len(whole)} of {len(whole)} bytes read"))
        self.assertEqual(run.out.count(b"\n"), len(blocks) + 1)
        self.assertEqual(run.status, DONE)
        reports = re.findall(
            rf"^ipld: many\.car: (\d+) of {len(whole)} bytes read, (\d+) seconds left$",
            run.err.decode(),
            re.M,
        )
        self.assertTrue(reports, run.err)
        # There is one line in a second.
        self.assertLessEqual(len(reports), time.monotonic() - begun)
        for read, left in (map(int, report) for report in reports):
            # The rest is read as fast as before, in a whole number of seconds.
            self.assertIn(
                left,
                [seconds * (len(whole) - read) // read for seconds in range(1, SECONDS_FOR_A_RUN)],
            )
