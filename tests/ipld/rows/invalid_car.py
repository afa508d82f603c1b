"""Rows of all commands for files that are not CARs."""

import errno

from ..blocks import PART
from ..invalid import INVALID_CARS
from . import ERROR, fails, system_error


def commands(name):
    """Returns the command lines that read a CAR."""
    return [
        f"car list {name}",
        f"car missing {name}",
        f"car verify {name}",
        f"car extract {name} {PART.cid}",
    ]


INVALID = [
    fails(command, it.name, it.why + it.hint)
    for it in INVALID_CARS
    for command in commands(it.name)
]

# If reading fails, there is no hint about the file.
FOLDER = [
    fails(command, ".", f"cannot read the file: {system_error(errno.EISDIR)} at byte 0", ERROR)
    for command in commands(".")
]
