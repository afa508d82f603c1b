"""Runs the program, and compares its output with a row."""

import collections
import contextlib
import os
import pathlib
import re
import shlex
import subprocess
import tempfile
import time
import unittest

from .files import FILES

# With this, unittest leaves the functions of this file out of the traceback of a failure.
__unittest = True

SECONDS_FOR_A_RUN = 120
# Longer output is cut in the message of a failure.
CHARACTERS_SHOWN = 1000


class Run(collections.namedtuple("Run", "out err status")):
    """The bytes that a program printed to standard output and to standard error, and its status."""

    __slots__ = ()


def program():
    """Returns the path of the program to test, which the variable IPLD contains."""
    path = pathlib.Path(os.environ.get("IPLD", "")).resolve()
    if not path.is_file():
        raise FileNotFoundError("set IPLD to the program that the tests run, such as IPLD=./ipld")
    return path


def arguments_of(command):
    """Returns the arguments of a command line, which may already be a list."""
    return shlex.split(command) if isinstance(command, str) else command


def matches(expected, seen):
    """Returns whether output is as a row expects it."""
    if expected is None:
        return True
    if isinstance(expected, re.Pattern):
        return bool(expected.fullmatch(seen.decode(errors="surrogateescape")))
    return seen == (expected.encode() if isinstance(expected, str) else expected)


def shown(value):
    """Returns output, or what is expected of it, as the message of a failure shows it."""
    if isinstance(value, re.Pattern):
        value = value.pattern
    if isinstance(value, bytes):
        value = value.decode(errors="surrogateescape")
    text = repr(value)
    if len(text) <= CHARACTERS_SHOWN:
        return text
    return f"{text[:CHARACTERS_SHOWN]}.. ({len(text)} characters)"


class ProgramTest(unittest.TestCase):
    """A test that runs the program in a new folder with the files of `files.py`."""

    @classmethod
    def setUpClass(cls):
        cls.program = program()
        folder = tempfile.TemporaryDirectory(prefix="ipld-")
        cls.addClassCleanup(folder.cleanup)
        cls.folder = pathlib.Path(folder.name)
        for name, data in FILES.items():
            (cls.folder / name).write_bytes(data)

    def run_program(self, command, folder=None, **options):
        """Runs a command line, in the folder of the test if no other is given."""
        if "input" not in options:
            options.setdefault("stdin", subprocess.DEVNULL)
        options.setdefault("stdout", subprocess.PIPE)
        ran = subprocess.run(
            [self.program, *arguments_of(command)],
            cwd=folder or self.folder,
            env={},
            stderr=subprocess.PIPE,
            timeout=SECONDS_FOR_A_RUN,
            **options,
        )
        return Run(ran.stdout or b"", ran.stderr, ran.returncode)

    @contextlib.contextmanager
    def started(self, command, folder=None, **options):
        """Starts a command line. The program is killed if the test fails before it ends."""
        options.setdefault("stdin", subprocess.DEVNULL)
        with subprocess.Popen(
            [self.program, *arguments_of(command)],
            cwd=folder or self.folder,
            env={},
            stdout=subprocess.PIPE,
            stderr=subprocess.PIPE,
            **options,
        ) as running:
            try:
                yield running
            except BaseException:
                running.kill()
                raise

    def ended(self, running, given=None):
        """Waits for the end of a program that was started. Returns its output since then."""
        out, err = running.communicate(given, timeout=SECONDS_FOR_A_RUN)
        return Run(out, err, running.returncode)

    def pipe_to(self, running, path):
        """
        Opens a pipe for writing, once a program that was started has opened it. Fails if the program
        ends before.
        """
        deadline = time.monotonic() + SECONDS_FOR_A_RUN
        while running.poll() is None and time.monotonic() < deadline:
            # Without a reader, the pipe can't be opened.
            with contextlib.suppress(OSError):
                writing = os.open(path, os.O_WRONLY | os.O_NONBLOCK)
                os.set_blocking(writing, True)
                return open(writing, "wb", buffering=0)
            time.sleep(0.001)
        return self.fail(f"the program did not open {path.name}")

    def compare(self, row, run):
        """Fails if a run differs from a row."""
        wrong = [
            f"{name}: {shown(seen)}\nand not {shown(expected)}"
            for name, expected, seen in [
                ("standard output", row.out, run.out),
                ("standard error", row.err, run.err),
            ]
            if not matches(expected, seen)
        ]
        if run.status != row.status:
            wrong.append(f"status: {run.status} and not {row.status}")
        if wrong:
            self.fail("\n".join(wrong))

    def check(self, row, folder=None, **options):
        """Runs the command line of a row, and fails if its output differs."""
        self.compare(row, self.run_program(row.command, folder, **options))

    def check_rows(self, rows, **options):
        """Runs the command line of each row, and fails for each whose output differs."""
        for row in rows:
            with self.subTest(ipld=row.command):
                self.check(row, **options)
