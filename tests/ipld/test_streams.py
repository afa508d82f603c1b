"""Tests of standard input, of outputs that fail or that nobody reads, and of messages."""

import contextlib
import errno
import functools
import os
import re
import socket
import subprocess

from .blocks import EMPTY, PART
from .formats import car, cbor
from .program import SECONDS_FOR_A_RUN, ProgramTest, arguments_of
from .rows import CHECK_FAILED, DONE, ERROR, Row, fails, lines, streams, system_error
from .rows.outputs import IS_INPUT

# Standard output is closed in the new process.
CLOSED = {"stdout": None, "preexec_fn": functools.partial(os.close, 1)}


class InputTest(ProgramTest):
    def test_standard_input(self):
        for given, row in streams.STANDARD_INPUT:
            with self.subTest(ipld=row.command):
                self.check(row, input=given)

    def test_lines_without_an_end(self):
        with subprocess.Popen(
            ["yes"], stdout=subprocess.PIPE, stderr=subprocess.DEVNULL
        ) as endless:
            self.check(streams.ENDLESS_LINES, stdin=endless.stdout)

    def test_zeros_without_an_end(self):
        with open("/dev/zero", "rb") as zeros:
            self.check(streams.ENDLESS_ZEROS, stdin=zeros)


class OutputFailsTest(ProgramTest):
    def check_on_full_device(self, row):
        with self.subTest(ipld=row.command), open("/dev/full", "wb") as full:
            self.check(row, stdout=full)

    def test_a_full_device(self):
        for row in streams.FULL_DEVICE:
            self.check_on_full_device(row)

    def test_a_block_to_a_full_device(self):
        self.check_on_full_device(
            fails(
                f"car extract a.car {PART.cid}",
                "standard output",
                system_error(errno.ENOSPC),
                ERROR,
            )
        )

    def test_help_to_a_full_device(self):
        for command in ("--help", "--version", "show --help"):
            self.check_on_full_device(Row(command, None, None, ERROR))

    def test_standard_output_is_not_open(self):
        self.check_rows(streams.NO_OUTPUT, **CLOSED)

    def test_a_block_if_standard_output_is_not_open(self):
        self.check(
            fails(
                f"car extract a.car {PART.cid}", "standard output", system_error(errno.EBADF), ERROR
            ),
            **CLOSED,
        )


class UnreadTest(ProgramTest):
    """If nobody reads the output any more, the program ends without a message."""

    def check_unread(self, row, **options):
        reading, writing = os.pipe()
        os.close(reading)
        with open(writing, "wb") as pipe:
            self.check(row, stdout=pipe, **options)

    def test_nobody_reads_the_first_byte(self):
        for row in streams.UNREAD:
            with self.subTest(ipld=row.command):
                self.check_unread(row)

    def test_nobody_reads_the_cids_of_lines(self):
        row = Row("cid -t -", "", re.compile("ipld: plain: .*\n"), CHECK_FAILED)
        self.check_unread(row, input=lines("plain", *[EMPTY.cid] * 1000).encode())

    def test_the_reader_leaves(self):
        (self.folder / "long").write_bytes(cbor([EMPTY.cid] * 100_000))
        (self.folder / "long.car").write_bytes(car([EMPTY.cid], [EMPTY] * 100_000))
        for command in streams.LONG_OUTPUT:
            with self.subTest(ipld=command), self.started(command) as running:
                running.stdout.read(10)
                running.stdout.close()
                err = running.stderr.read()
                self.assertEqual((err, running.wait(timeout=SECONDS_FOR_A_RUN)), (b"", DONE))


class MessageTest(ProgramTest):
    def test_the_output_is_an_input(self):
        for command in streams.ONTO_INPUT:
            path = self.folder / command.split()[-1]
            before = path.read_bytes()
            with self.subTest(ipld=command), path.open("ab") as output:
                self.check(
                    fails(command, "standard output", IS_INPUT, ERROR, out=None), stdout=output
                )
                self.assertEqual(path.read_bytes(), before)

    def test_a_message_is_one_write(self):
        for command, count in streams.MESSAGES:
            reading, writing = socket.socketpair(socket.AF_UNIX, socket.SOCK_DGRAM)
            with self.subTest(ipld=command), reading, writing:
                subprocess.run(
                    [self.program, *arguments_of(command)],
                    cwd=self.folder,
                    env={},
                    stdin=subprocess.DEVNULL,
                    stdout=subprocess.DEVNULL,
                    stderr=writing,
                    timeout=SECONDS_FOR_A_RUN,
                )
                writing.close()
                reading.setblocking(False)
                self.assertEqual([it[:6] for it in messages_of(reading)], [b"ipld: "] * count)

    def test_control_characters_of_values(self):
        err = re.compile(r"error: invalid value '\\u\{1b\}' for '--limit <SIZE>': .*\n\n.*\n")
        self.check(Row(["car", "list", "--limit=\x1b", "a.car"], "", err, ERROR))

    def test_control_characters_of_names(self):
        (self.folder / "a\x1b[31m\nb\x9b").write_bytes(b"\xf6")
        shown = "a\\u{1b}[31m\\nb\\u{9b}"
        name = "a\x1b[31m\nb\x9b"
        self.check(Row(["check", name], f"{shown}: valid\n"))
        self.check(
            Row(
                ["car", "list", name],
                "",
                re.compile(f"ipld: {re.escape(shown)}: not a CAR.*\n"),
                CHECK_FAILED,
            )
        )
        self.check(
            Row(
                ["cid", "-t", name],
                "",
                re.compile(f"ipld: {re.escape(shown)}: not a CID.*\n"),
                CHECK_FAILED,
            )
        )


def messages_of(reading):
    """Returns what was written to a socket, one item for each write."""
    found = []
    with contextlib.suppress(BlockingIOError):
        while True:
            found.append(reading.recv(1 << 16))
    return found
