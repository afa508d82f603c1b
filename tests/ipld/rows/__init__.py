"""Tables of command lines, with what `ipld` has to print for each."""

import collections
import json
import os
import re

from .. import formats
from ..blocks import (
    CAR,
    CUT_CBOR,
    CUT_CBOR_ERROR,
    LAST_AT,
    TOP,
    UNKNOWN_PB,
    UNKNOWN_PB_ERROR,
    WITH_INVALID,
)

# The statuses that `ipld --help` lists.
DONE, CHECK_FAILED, ERROR = 0, 1, 2

# What several commands print.
NOT_INSIDE = "is not a list or a map, so it has no"
WRONG_DIGEST = "the digest of the block is wrong (--unchecked takes the block as it is)"
UNKNOWN_HASH = "the hash function 0x11 is not supported (--unchecked takes the block as it is)"
NO_BLOCK = "the CAR has no block with this CID"
NOT_CANONICAL = "valid, but not canonical DAG-CBOR: the keys of a map are not sorted length first"
NOT_A_CAR = re.compile("ipld: .*: not a CAR.*\n")
UNKNOWN_LINKS = (
    "ipld: warning: the links of 1 block are unknown, because its codec is not supported\n"
)


class Row(collections.namedtuple("Row", "command out err status", defaults=("", "", DONE))):
    """
    A command line without its first word `ipld`, what it prints to standard output and to standard
    error, and its status.

    The command line is split as a shell splits it, or is a list of arguments. Output is a string,
    bytes, a pattern that has to match all of it, or None if it may be anything.
    """

    __slots__ = ()


def message(name, why):
    """Returns a message about a file, a CID or a stream."""
    return f"ipld: {name}: {why}\n"


def fails(command, name, why, status=CHECK_FAILED, out=""):
    """Returns the row of a command that reports an error about a file, a CID or a stream."""
    return Row(command, out, message(name, why), status)


def usage_error(why):
    """Returns the message about arguments that can't be used together."""
    return f"error: {why}\n\nFor more information, try '--help'.\n"


def system_error(number):
    """Returns the message for an error number of the system."""
    return f"{os.strerror(number)} (os error {number})"


def lines(*values):
    """Returns a line for each value, such as a CID."""
    return "".join(f"{value}\n" for value in values)


def json_lines(*objects):
    """Returns a line of JSON for each object, with CIDs as strings."""

    def text(value):
        if isinstance(value, formats.Cid):
            return str(value)
        raise TypeError(value)

    return lines(
        *(json.dumps(it, ensure_ascii=False, separators=(",", ":"), default=text) for it in objects)
    )


def dag_json_line(value):
    """Returns the line that `show --json` prints for a value."""
    return formats.dag_json(value) + "\n"


def cut_section(begin, end):
    """Returns the error of a section that a CAR has only in part."""
    return f"truncated: the section that begins at byte {begin} is cut off at byte {end}"


def cut_payload(size, found):
    """Returns the error of a CAR of version 2 that has only some bytes of its payload."""
    return (
        f"truncated: the payload should be {size} bytes, "
        f"and the file has {found} of them at byte {formats.PAYLOAD_AT + found}"
    )


# The warning about `empty.car`.
NO_ROOTS = message("empty.car", "warning: the CAR has no roots, and CARv1 requires at least one")
# The error of `cut.car`, and what is printed about the invalid blocks of `bad.car`.
CUT_CAR = cut_section(LAST_AT, len(CAR) - 1)
INVALID_AT = formats.sections_of([TOP.cid], WITH_INVALID)
INVALID_IN_CAR = "".join(
    message("bad.car", f"{block.cid} at byte {INVALID_AT[WITH_INVALID.index(block)]}: {why}")
    for block, why in [(CUT_CBOR, CUT_CBOR_ERROR), (UNKNOWN_PB, UNKNOWN_PB_ERROR)]
)
