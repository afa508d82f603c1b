"""Tests of the files that `ipld car create` writes: it never loses a file that is there."""

import errno
import os
import select

from .blocks import CAR, HELLO
from .folders import OutputTest, contents, failing_syncs, small_files
from .rows import ERROR, Row, fails, outputs, system_error
from .rows.outputs import EXISTS, HELLO_CAR, IS_INPUT, NEW, THERE


class OutputsTest(OutputTest):
    def test_files_that_are_created(self):
        self.check_outputs(outputs.CREATED)

    def test_files_that_are_not_created(self):
        self.check_outputs(outputs.NOT_CREATED)

    def test_copies_of_a_car(self):
        self.check_outputs(outputs.COPIED + outputs.NOT_COPIED, {"a.car": CAR})

    def test_inputs_are_not_overwritten(self):
        self.check_outputs(outputs.ONTO_INPUTS)

    def test_writes_that_fail(self):
        self.check_outputs(outputs.TOO_LARGE, preexec_fn=small_files)

    def test_syncs_that_fail(self):
        self.check_outputs(outputs.NOT_SYNCED, preexec_fn=failing_syncs)

    def test_devices(self):
        self.check_outputs(outputs.DEVICES)

    def test_a_reader_keeps_the_file_that_is_replaced(self):
        folder = self.new_folder()
        with open(folder / "there.car", "rb") as old:
            self.check_left(
                Row("car create -c raw -o there.car --force plain"),
                {"there.car": (THERE, HELLO_CAR)},
                folder,
            )
            self.assertEqual(old.read(), b"there")

    def test_a_file_that_comes_while_blocks_are_read(self):
        folder = self.new_folder()
        os.mkfifo(folder / "slow")
        row = fails("car create -c raw -o new.car slow", "new.car", EXISTS, ERROR)
        with self.started(row.command, folder) as running:
            with self.pipe_to(running, folder / "slow") as slow:
                (folder / "new.car").write_bytes(b"came")
                before = contents(folder)
                slow.write(HELLO.data)
            self.compare(row, self.ended(running))
        self.assert_contents(folder, before)

    def test_standard_input_is_not_overwritten(self):
        folder = self.new_folder()
        row = fails("car create -c raw -o plain --force -", "plain", IS_INPUT, ERROR)
        with open(folder / "plain", "rb") as plain:
            self.check_left(row, {}, folder, stdin=plain)

    def test_standard_input_becomes_a_file(self):
        folder = self.new_folder()
        row = Row("car create -c raw -o new.car -")
        with open(folder / "plain", "rb") as plain:
            self.check_left(row, {"new.car": (NEW, HELLO_CAR)}, folder, stdin=plain)

    def test_standard_output_is_not_an_input(self):
        folder = self.new_folder()
        row = fails("car create -c raw -o - soft", "standard output", IS_INPUT, ERROR)
        with open(folder / "plain", "ab") as plain:
            self.check_left(row, {}, folder, stdout=plain)

    def test_a_full_device_as_standard_output(self):
        row = fails(
            "car create -c raw -o - plain", "standard output", system_error(errno.ENOSPC), ERROR
        )
        with open("/dev/full", "wb") as full:
            self.check_left(row, {}, stdout=full)

    def test_a_pipe(self):
        folder = self.new_folder()
        os.mkfifo(folder / "pipe")
        # It is open for reading and for writing, so neither side waits for the other.
        with open(os.open(folder / "pipe", os.O_RDWR), "rb") as pipe:
            self.check_left(Row("car create -c raw -o pipe plain"), {}, folder)
            self.assertEqual(os.read(pipe.fileno(), 1000), HELLO_CAR)

    def test_a_pipe_whose_reader_leaves(self):
        folder = self.new_folder({"much": bytes(1_000_000)})
        os.mkfifo(folder / "pipe")
        row = fails("car create -c raw -o pipe much", "pipe", system_error(errno.EPIPE), ERROR)
        with self.started(row.command, folder) as running:
            # This does not wait for the program to open the pipe.
            with open(os.open(folder / "pipe", os.O_RDONLY | os.O_NONBLOCK), "rb") as pipe:
                while running.poll() is None and not select.select([pipe], [], [], 0.01)[0]:
                    pass
                pipe.read(10)
            self.compare(row, self.ended(running))
