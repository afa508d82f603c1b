"""Tests of `ipld car extract`."""

import errno
import os
import pty
import subprocess
import time

from .blocks import CAR, NODE, PART, TOP, TREE
from .folders import OutputTest, failing_syncs, small_files
from .formats import car
from .program import SECONDS_FOR_A_RUN
from .rows import DONE, ERROR, Row, car_extract, fails, outputs, system_error
from .rows.outputs import EXTRACT_FILES, IS_INPUT, NEW


class ExtractTest(OutputTest):
    def test_blocks(self):
        self.check_rows(car_extract.EXTRACTED)

    def test_blocks_that_are_not_extracted(self):
        self.check_rows(car_extract.NOT_EXTRACTED)

    def test_unchecked(self):
        self.check_rows(car_extract.UNCHECKED)

    def test_directory(self):
        self.check_outputs(outputs.EXTRACTED, EXTRACT_FILES)

    def test_directory_of_a_block_of_version_0(self):
        folder = self.new_folder({"node.car": car([NODE.cid], [NODE])})
        self.check_left(
            Row(f"car extract node.car {NODE.cid} -d dir"),
            {f"dir/{NODE.cid}": (NEW, NODE.data)},
            folder,
        )

    def test_a_write_that_fails_leaves_nothing(self):
        self.check_left(
            fails(
                f"car extract a.car {TOP.cid} -d dir",
                f"dir/{TOP.cid}",
                system_error(errno.EFBIG),
                ERROR,
            ),
            {},
            self.new_folder(EXTRACT_FILES),
            preexec_fn=small_files,
        )

    def test_a_sync_that_fails(self):
        """The blocks are synced together, after the last of them."""
        self.check_left(
            fails("car extract --all -d . a.car", ".", system_error(errno.EIO), ERROR),
            {str(it.cid): (NEW, it.data) for it in TREE},
            self.new_folder(EXTRACT_FILES),
            preexec_fn=failing_syncs,
        )

    def test_the_car_is_not_overwritten(self):
        self.check_left(
            fails(
                f"car extract {PART.cid} {PART.cid} -d . --force", f"./{PART.cid}", IS_INPUT, ERROR
            ),
            {},
            self.new_folder({**EXTRACT_FILES, str(PART.cid): CAR}),
        )

    def test_progress_on_a_terminal(self):
        folder = self.new_folder({})
        os.mkfifo(folder / "slow.car")
        leader, follower = pty.openpty()
        with subprocess.Popen(
            [self.program, *"car extract --all -d dir slow.car".split()],
            cwd=folder,
            env={},
            stdin=subprocess.DEVNULL,
            stderr=follower,
        ) as running:
            os.close(follower)
            with self.pipe_to(running, folder / "slow.car") as slow:
                slow.write(CAR[:-1])
                # A line is due after a second.
                time.sleep(1.5)
                slow.write(CAR[-1:])
            self.assertEqual(running.wait(SECONDS_FOR_A_RUN), DONE)
        with open(leader, "rb", buffering=0) as terminal:
            self.assertEqual(
                terminal.read(1000).decode(), f"ipld: slow.car: {len(CAR)} bytes read\r\n"
            )
