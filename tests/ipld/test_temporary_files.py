"""Tests of the temporary files next to an output, which stay if a run is killed."""

import contextlib
import fcntl
import os
import pathlib
import re
import signal
import subprocess
import time

from .blocks import CAR, HELLO
from .folders import OutputTest, contents
from .formats import car, raw
from .program import SECONDS_FOR_A_RUN, Run
from .rows import ERROR, Row
from .rows.outputs import HELLO_CAR, THERE

# The ends of the names of temporary files, of one that another run has locked, and of files whose
# names only look like them.
TEMPORARY = ("1", "77", "88-3")
LOCKED = "2"
OTHER = ("x", "", "5 things", "6-", "-7", "8-9x")
# How many names a run tries for its temporary file.
NAMES = 1000
KILLED_RUNS = 12
SECONDS_BETWEEN = 0.025


class TemporaryFilesTest(OutputTest):
    def check_removed(self, row, name, changed):
        """
        Runs the command line of a row in a folder with temporary files of this output. Fails unless
        these are removed, and only these.
        """
        folder = self.new_folder({"hello.car": HELLO_CAR, f"{name}.ipld-1": b"stays"})
        for end in (LOCKED, *OTHER):
            (folder / f".{name}.ipld-{end}").write_bytes(b"stays")
        (folder / f".{name}x.ipld-1").write_bytes(b"stays")
        os.mkfifo(folder / f".{name}.ipld-3")
        (folder / f".{name}.ipld-4").mkdir()
        (folder / f".{name}.ipld-5").symlink_to("plain")
        expected = {**contents(folder), **changed}
        for end in TEMPORARY:
            (folder / f".{name}.ipld-{end}").write_bytes(b"left")
        with open(folder / f".{name}.ipld-{LOCKED}", "rb") as locked:
            fcntl.flock(locked, fcntl.LOCK_EX)
            self.check(row, folder)
        self.assert_contents(folder, expected)

    def test_the_next_run_removes_them(self):
        for name, command, changed in [
            (
                "new.car",
                "car create -c raw -o new.car plain",
                {"new.car": (self.new_mode, HELLO_CAR)},
            ),
            (
                "there.car",
                "car create -c raw --force -o link.car plain",
                {"there.car": (THERE, HELLO_CAR)},
            ),
            (
                "new-0.car",
                "car create -c raw -o new.car --split 1K plain",
                {"new-0.car": (self.new_mode, HELLO_CAR)},
            ),
            (
                "extract",
                f"car extract hello.car {HELLO.cid} -d .",
                {f"{HELLO.cid}": (self.new_mode, HELLO.data)},
            ),
        ]:
            with self.subTest(ipld=command):
                self.check_removed(Row(command), name, changed)

    def test_a_killed_run_leaves_a_whole_output_or_none(self):
        much = raw(bytes(30_000_000))
        whole = car([much.cid], [much])
        folder = self.new_folder({"much": much.data})
        output = folder / "new.car"
        row = Row("car create -c raw --limit=1G -o new.car much")
        for number in range(KILLED_RUNS):
            with self.started(row.command, folder) as running:
                time.sleep(number * SECONDS_BETWEEN)
                running.send_signal(signal.SIGINT)
                self.ended(running)
            self.assertLessEqual(len(list(folder.glob(".new.car.ipld-*"))), 1)
            if output.exists():
                data = output.read_bytes()
                self.assertTrue(data in (b"", whole), f"new.car has {len(data)} bytes")
                output.unlink()
        self.check(row, folder)
        self.assertEqual(list(folder.glob(".new.car.ipld-*")), [])

    def test_nothing_is_left_of_a_copy_of_standard_input(self):
        with self.started("car create -o - car:-", stdin=subprocess.PIPE) as running:
            self.compare(Row("", CAR), self.ended(running, CAR))
        left = pathlib.Path("/tmp").glob(f"ipld-{running.pid}-*")
        self.assertEqual(list(left), [])

    def test_no_name_is_free(self):
        """Another process has locked a file of each name, which has the number of the process."""
        folder = self.new_folder()
        row = Row(
            "car create -c raw -o new.car plain",
            "",
            re.compile("ipld: new.car: cannot create a temporary file next to it: .*\n"),
            ERROR,
        )
        # The shell becomes the program, which then has the same number.
        line = f'read line; exec "$0" {row.command}'
        with contextlib.ExitStack() as stack:
            running = stack.enter_context(
                subprocess.Popen(
                    ["sh", "-c", line, self.program],
                    cwd=folder,
                    env={},
                    stdin=subprocess.PIPE,
                    stdout=subprocess.PIPE,
                    stderr=subprocess.PIPE,
                )
            )
            for number in range(NAMES):
                name = f".new.car.ipld-{running.pid}" + (f"-{number}" if number else "")
                file = stack.enter_context(open(folder / name, "wb"))
                fcntl.flock(file, fcntl.LOCK_EX)
            before = contents(folder)
            out, err = running.communicate(b"\n", timeout=SECONDS_FOR_A_RUN)
            self.compare(row, Run(out, err, running.returncode))
            self.assert_contents(folder, before)
