"""Tests of the examples in the help of the program, and on the pages of the repository."""

import os
import pathlib
import subprocess
import sys
import tempfile

from .formats import DAG_PB, block, car, cbor, dag_cbor, pb, pb_link, raw
from .program import SECONDS_FOR_A_RUN, ProgramTest
from .rows import DONE, Row
from .unixfs import RAW_LEAVES, car_of, file_of, folder

PAGE_EXAMPLES = pathlib.Path(__file__).resolve().parents[2] / ".ci" / "examples.py"
COMMANDS = (
    "",
    "show",
    "links",
    "check",
    "cid",
    "cat",
    "ls",
    "pack",
    "unpack",
    "car",
    "car list",
    "car inspect",
    "car roots",
    "car links",
    "car graph",
    "car missing",
    "car verify",
    "car extract",
    "car filter",
    "car index",
    "car salvage",
    "car create",
    "encode",
)
# How many examples that print something the help of a command has.
LEAST_EXAMPLES, MOST_EXAMPLES = 3, 5

# The files that the examples in the help read.
PHOTO = dag_cbor({"name": "photo", "size": 42})
ALBUM = dag_cbor({"photos": [PHOTO.cid], "title": "Cats"})
NOTES = raw(b"Hello, world\n")
FOLDER = block(DAG_PB, pb([pb_link(NOTES.cid, b"notes.txt", len(NOTES.data))], b"\x08\x01"))
PICTURES = folder({b"0.txt": file_of(b"A cat on a mat.\n", RAW_LEAVES)}, 1)
SITE = folder(
    {b"about.txt": file_of(b"Cats, and their pictures.\n", RAW_LEAVES), b"pictures": PICTURES}, 1
)
FILES = {
    "photo.cbor": PHOTO.data,
    "cat.cbor": cbor({"name": "cat"}),
    "album.cbor": ALBUM.data,
    "unsorted.cbor": cbor((("b", 1), ("a", 2))),
    "notes.txt": NOTES.data,
    "folder.pb": FOLDER.data,
    "album.car": car([ALBUM.cid], [ALBUM, PHOTO]),
    "part.car": car([ALBUM.cid], [ALBUM]),
    "site.car": car_of(SITE),
}


def examples_in(text):
    """Returns the commands of the examples in a help text, each with the lines that it prints."""
    found = []
    for line in text.partition("\nExamples:\n")[2].splitlines():
        if line.startswith("  $ "):
            found.append((line[len("  $ ") :], []))
        elif line:
            found[-1][1].append(line[2:])
    return found


class ExamplesTest(ProgramTest):
    def path_to(self, folder):
        """Makes a link to the program in a folder. Returns a PATH that begins with the folder."""
        (folder / "ipld").symlink_to(self.program)
        return f"{folder}:{os.environ.get('PATH', '')}"

    def check_help_of(self, command):
        """Runs the examples in the help of a command one after the other."""
        run = self.run_program(f"{command} --help")
        self.compare(Row(command, None, "", DONE), run)
        examples = examples_in(run.out.decode())
        if command:
            count = sum(bool(printed) for _, printed in examples)
            self.assertTrue(LEAST_EXAMPLES <= count <= MOST_EXAMPLES, f"{count} examples")
        folder = pathlib.Path(tempfile.mkdtemp(dir=self.folder))
        (folder / "bin").mkdir()
        (folder / "blocks").mkdir()
        for name, data in FILES.items():
            (folder / name).write_bytes(data)
        path = self.path_to(folder / "bin")
        for line, printed in examples:
            with self.subTest(example=line):
                ran = subprocess.run(
                    ["sh", "-c", line],
                    cwd=folder,
                    env={"PATH": path},
                    stdin=subprocess.DEVNULL,
                    stdout=subprocess.PIPE,
                    stderr=subprocess.STDOUT,
                    timeout=SECONDS_FOR_A_RUN,
                )
                self.assertEqual([it.rstrip() for it in ran.stdout.decode().splitlines()], printed)

    def test_help(self):
        for command in COMMANDS:
            with self.subTest(ipld=command):
                self.check_help_of(command)

    def test_pages(self):
        folder = pathlib.Path(tempfile.mkdtemp(dir=self.folder))
        ran = subprocess.run(
            [sys.executable, PAGE_EXAMPLES, "ipld", folder],
            env={"PATH": self.path_to(folder)},
            stdout=subprocess.PIPE,
            stderr=subprocess.STDOUT,
        )
        self.assertEqual(ran.returncode, DONE, f"\n{ran.stdout.decode()}")
