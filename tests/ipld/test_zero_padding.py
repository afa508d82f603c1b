"""Tests of `--zero-padding`: zeros after the last section of a CAR."""

from .blocks import CAR, TREE
from .formats import PAYLOAD_AT, car_v2, entries_of, index_of
from .program import ProgramTest
from .rows import CHECK_FAILED, DONE, ERROR, Row

SIZES = [1, 7, 4096, 70_000]
COMMANDS = [
    "car list",
    "car list --json",
    "car links",
    "car graph",
    "car inspect",
    "car missing",
    "car verify",
]


def padded(size):
    """Returns a CAR with this number of zeros after its last section."""
    return CAR + bytes(size)


def padded_v2(size):
    """Returns a CAR of version 2 whose payload ends with zeros, before the index."""
    payload = padded(size)
    index = index_of(entries_of(TREE, [TREE[0][0]]))
    return car_v2(payload, index_at=PAYLOAD_AT + len(payload), index=index)


class ZeroPaddingTest(ProgramTest):
    def write(self, name, data):
        (self.folder / name).write_bytes(data)

    def same_as(self, command, option, given, expected):
        """
        Compares the output about a file, and about the same bytes on standard input, with that
        about a file without zeros.
        """
        whole = self.run_program(f"{command} {expected}")
        row = Row("", whole.out, "", whole.status)
        err = whole.err.decode()
        with self.subTest(ipld=command, file=given):
            self.compare(
                row._replace(err=err.replace(expected, given)),
                self.run_program(f"{command} {option} {given}"),
            )
            self.compare(
                row._replace(err=err.replace(expected, "-")),
                self.run_program(f"{command} {option} -", input=(self.folder / given).read_bytes()),
            )

    def test_zeros_are_allowed(self):
        self.write("whole", CAR)
        self.write("whole-2", car_v2(CAR))
        for size in SIZES:
            self.write("padded", padded(size))
            self.write("padded-2", car_v2(padded(size)))
            for command in COMMANDS:
                self.same_as(command, "--zero-padding", "padded", "whole")
                self.same_as(command, "--zero-padding", "padded-2", "whole-2")

    def test_zeros_are_an_error_by_default(self):
        self.write("padded", padded(10))
        for command in COMMANDS:
            ran = self.run_program(f"{command} padded")
            with self.subTest(ipld=command):
                self.assertEqual(ran.status, CHECK_FAILED)
                self.assertEqual(
                    ran.err.decode(),
                    f"ipld: padded: the section length is zero at byte {len(CAR)}\n",
                )

    def test_other_bytes_after_zeros(self):
        for size in SIZES:
            self.write("padded", padded(size) + b"\1" + bytes(9))
            err = (
                f"ipld: padded: byte {len(CAR) + size} is not 0, but the zeros from byte"
                f" {len(CAR)} on end the sections\n"
            )
            for command in ["car verify", "car missing", "car list"]:
                ran = self.run_program(f"{command} --zero-padding padded")
                with self.subTest(ipld=command, zeros=size):
                    self.assertEqual((ran.status, ran.err.decode()), (CHECK_FAILED, err))

    def test_a_payload_with_zeros_and_an_index(self):
        self.write("padded", padded_v2(100))
        self.check_rows(
            [
                Row("car verify --zero-padding padded", "", "", DONE),
                Row("car verify padded", "", None, CHECK_FAILED),
            ]
        )

    def test_a_cut_payload_with_zeros(self):
        self.write("padded", car_v2(CAR + bytes(50), size=len(CAR) + 100))
        err = (
            f"ipld: padded: truncated: the payload should be {len(CAR) + 100} bytes, and the file"
            f" has {len(CAR) + 50} of them at byte {PAYLOAD_AT + len(CAR) + 50}\n"
        )
        self.check_rows([Row("car verify --zero-padding padded", "", err, CHECK_FAILED)])

    def test_new_cars(self):
        self.write("whole", CAR)
        self.write("padded", padded(4096))
        roots = self.run_program("car roots whole").out.decode().split()
        for command in [
            "car create -o {} --zero-padding car:{}",
            "car filter -o {} --zero-padding {} " + roots[0],
            "car index -o {} --zero-padding {}",
        ]:
            plain = command.replace(" --zero-padding", "")
            with self.subTest(ipld=command):
                self.check(Row(plain.format("new-of-whole", "whole"), "", "", DONE))
                self.check(Row(command.format("new-of-padded", "padded"), "", "", DONE))
                self.assertEqual(
                    (self.folder / "new-of-padded").read_bytes(),
                    (self.folder / "new-of-whole").read_bytes(),
                )
                for name in ["new-of-whole", "new-of-padded"]:
                    (self.folder / name).unlink()

    def test_extract(self):
        self.write("whole", CAR)
        self.write("padded", padded(4096))
        for name in ["of-whole", "of-padded"]:
            (self.folder / name).mkdir()
        self.check(Row("car extract --all -d of-whole whole", None, "", DONE))
        self.check(Row("car extract --all -d of-padded --zero-padding padded", None, "", DONE))
        files = [
            {it.name: it.read_bytes() for it in (self.folder / name).iterdir()}
            for name in ["of-whole", "of-padded"]
        ]
        self.assertEqual(files[0], files[1])
        self.assertTrue(files[0])

    def test_show(self):
        self.write("whole", CAR)
        self.write("padded", padded(4096))
        whole = self.run_program("show whole")
        self.check(Row("show --zero-padding padded", whole.out.decode(), "", DONE))

    def test_an_option_without_effect(self):
        ran = self.run_program("car create -o new.car --zero-padding leaf")
        self.assertEqual(ran.status, ERROR)
        self.assertIn(b"--zero-padding applies only to CARs", ran.err)
