"""Tests of `ipld encode`."""

from .folders import OutputTest
from .formats import cbor
from .rows import ERROR, Row, encode, fails
from .rows.outputs import EXISTS, IS_INPUT, NEW
from .texts import KINDS, KINDS_VALUE

BLOCK = cbor(KINDS_VALUE)


class EncodeTest(OutputTest):
    def test_codecs(self):
        self.check_rows(encode.ENCODED)

    def test_values_that_a_codec_does_not_have(self):
        self.check_rows(encode.NOT_IN_CODEC)

    def test_canonical_texts(self):
        self.check_rows(encode.NOT_CANONICAL)

    def test_invalid_texts(self):
        self.check_rows(encode.INVALID)

    def test_arguments(self):
        self.check_rows(encode.ARGUMENTS)

    def test_standard_input(self):
        self.check(Row("encode -", BLOCK), input=KINDS)

    def test_a_full_device(self):
        with open("/dev/full", "wb") as full:
            run = self.run_program("encode value.json", stdout=full)
        self.assertTrue(run.err.startswith(b"ipld: standard output: "), run)
        self.assertEqual(run.status, ERROR)

    def test_output(self):
        """The command lines run one after the other. Each has the bytes of `new` after it."""
        folder = self.new_folder({"value.json": KINDS, "none.json": b"[1"})
        ends = "line 1, column 3 (byte 2): unexpected end of the text"
        for row, new in [
            (fails("encode -o new none.json", "none.json", ends), None),
            (Row("encode -o new value.json"), BLOCK),
            (fails("encode -o new -c dag-json value.json", "new", EXISTS, ERROR), BLOCK),
            (fails("encode -o new --force none.json", "none.json", ends), BLOCK),
            (Row("encode -o new --force -c dag-json value.json"), KINDS),
            (
                fails("encode -o value.json --force value.json", "value.json", IS_INPUT, ERROR),
                KINDS,
            ),
            (fails("encode -o - none.json", "none.json", ends), KINDS),
        ]:
            with self.subTest(ipld=row.command):
                self.check_left(row, {} if new is None else {"new": (NEW, new)}, folder)
