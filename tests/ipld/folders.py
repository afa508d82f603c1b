"""Compares the files that a run leaves in a folder with those that were there before."""

import ctypes
import errno
import os
import pathlib
import resource
import signal
import struct
import tempfile

from .blocks import HELLO
from .program import ProgramTest, shown
from .rows.outputs import NEW, THERE

# With this, unittest leaves the functions of this file out of the traceback of a failure.
__unittest = True

# The longest file that a program may write after `small_files`.
SMALL = 50

# A filter of system calls on x86-64, for seccomp(2): `fsync` returns EIO, and the others run. Each
# step has a code, how many steps it skips if its condition holds and if not, and a number.
FSYNC = 74
STEPS = [
    struct.pack("<HBBI", *it)
    for it in [
        (0x20, 0, 0, 0),  # loads the number of the call
        (0x15, 0, 1, FSYNC),  # compares it
        (0x06, 0, 0, 0x00050000 | errno.EIO),  # returns the error
        (0x06, 0, 0, 0x7FFF0000),  # lets the call run
    ]
]
STEPS_IN_MEMORY = ctypes.create_string_buffer(b"".join(STEPS))
WITHOUT_SYNC = struct.pack("@HP", len(STEPS), ctypes.addressof(STEPS_IN_MEMORY))
NO_NEW_PRIVILEGES, SECCOMP, FILTER = 38, 22, 2
PRCTL = ctypes.CDLL(None, use_errno=True).prctl
PRCTL.argtypes = [ctypes.c_int, ctypes.c_ulong, ctypes.c_char_p, ctypes.c_ulong, ctypes.c_ulong]


def small_files():
    """Lets a write after the first 50 bytes of a file fail. It is called in the new process."""
    signal.signal(signal.SIGXFSZ, signal.SIG_IGN)
    resource.setrlimit(resource.RLIMIT_FSIZE, (SMALL, SMALL))


def failing_syncs():
    """Lets each sync of a file or a folder fail with EIO. It is called in the new process."""
    if PRCTL(NO_NEW_PRIVILEGES, 1, None, 0, 0) or PRCTL(SECCOMP, FILTER, WITHOUT_SYNC, 0, 0):
        raise OSError(ctypes.get_errno(), "prctl")


def contents(folder):
    """
    Returns what is in a folder, by path: the permissions and the bytes of a file, the target of a
    link, and None for others.
    """
    found = {}
    for path in sorted(folder.rglob("*")):
        if path.is_symlink():
            content = os.readlink(path)
        elif path.is_file():
            content = (path.stat().st_mode & 0o777, path.read_bytes())
        else:
            content = None
        found[str(path.relative_to(folder))] = content
    return found


class OutputTest(ProgramTest):
    """A test of the files that the program writes."""

    @classmethod
    def setUpClass(cls):
        super().setUpClass()
        path = cls.folder / "new file"
        path.write_bytes(b"")
        cls.new_mode = path.stat().st_mode & 0o777
        path.unlink()

    def new_folder(self, files=()):
        """
        Returns a new folder with these files and with `plain`, which is the block of HELLO. It also
        has files that the program may not replace by mistake, links, and the temporary file of
        another output.
        """
        folder = pathlib.Path(tempfile.mkdtemp(dir=self.folder))
        (folder / "plain").write_bytes(HELLO.data)
        (folder / "there.car").write_bytes(b"there")
        (folder / "there.car").chmod(THERE)
        (folder / ".other.car.ipld-1").write_bytes(b"left")
        (folder / "dir").mkdir()
        (folder / "link.car").symlink_to("there.car")
        (folder / "nothing.car").symlink_to("no-such")
        (folder / "soft").symlink_to("plain")
        os.link(folder / "plain", folder / "hard")
        for name, data in dict(files).items():
            (folder / name).write_bytes(data)
        return folder

    def check_left(self, row, changed, folder=None, **options):
        """
        Runs the command line of a row, in a new folder if none is given. Fails if the output
        differs, or if other files than those that are changed do. `changed` has the permissions and
        the bytes of these, by path.
        """
        folder = folder or self.new_folder()
        expected = contents(folder)
        for path, (mode, data) in changed.items():
            expected[path] = (self.new_mode if mode == NEW else mode, data)
        self.check(row, folder, **options)
        self.assert_contents(folder, expected)

    def check_outputs(self, rows, files=(), **options):
        """Does this for each row and the files that change, in new folders with these files."""
        for row, changed in rows:
            with self.subTest(ipld=row.command):
                self.check_left(row, changed, self.new_folder(files), **options)

    def assert_contents(self, folder, expected):
        """Fails if what is in a folder differs."""
        seen = contents(folder)
        differ = [it for it in {**expected, **seen} if expected.get(it, "") != seen.get(it, "")]
        if differ:
            self.fail(
                "\n".join(
                    f"{path}: {shown(seen.get(path, 'missing'))}\n"
                    f"and not {shown(expected.get(path, 'missing'))}"
                    for path in differ
                )
            )
