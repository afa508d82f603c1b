"""
Rows of `ipld car create` and `ipld car extract` that write files, in the folder of `folders.py`.
Each has the permissions and the bytes of the files that change.
"""

import errno
import re

from ..blocks import CAR, HELLO, LEAF, LOST, PART, TOP, TRAP, TREE
from ..formats import car, car_indexed
from . import CHECK_FAILED, ERROR, NO_BLOCK, WRONG_DIGEST, Row, fails, message, system_error

# The permissions of a new file, and those of `there.car`.
NEW, THERE = "new", 0o640
# The CAR of the file `plain`.
HELLO_CAR = car([HELLO.cid], [HELLO])

# A name of 255 bytes, the most that a file system allows.
LONG_NAME = "n" + "\u00e9" * 127

EXISTS = "the file exists; --force replaces it"
IS_INPUT = "the output is also an input; choose another name"
NOT_REGULAR = "not a regular file"
NO_FILE = system_error(errno.ENOENT)
CREATE = "car create -c raw"

CREATED = [
    (Row(f"{CREATE} -o new.car plain"), {"new.car": (NEW, HELLO_CAR)}),
    (Row(f"{CREATE} --output dir/new.car --force ./plain"), {"dir/new.car": (NEW, HELLO_CAR)}),
    (Row(f"{CREATE} -o - plain", HELLO_CAR), {}),
    (Row(f"{CREATE} -o there.car --force plain"), {"there.car": (THERE, HELLO_CAR)}),
    (Row(f"{CREATE} -o link.car --force plain"), {"there.car": (THERE, HELLO_CAR)}),
    (Row(f"{CREATE} -o {LONG_NAME} plain"), {LONG_NAME: (NEW, HELLO_CAR)}),
]

NOT_CREATED = [
    (row, {})
    for row in [
        # Without -o, the first file is not the output.
        Row(f"{CREATE} there.car plain", "", re.compile("(?s).*--output <CAR>.*"), ERROR),
        fails(f"{CREATE} -o there.car plain", "there.car", EXISTS, ERROR),
        fails(f"{CREATE} -o link.car plain", "link.car", EXISTS, ERROR),
        fails(f"{CREATE} -o nothing.car plain", "nothing.car", NO_FILE, ERROR),
        fails(f"{CREATE} -o nothing.car --force plain", "nothing.car", NO_FILE, ERROR),
        fails(f"{CREATE} -o dir plain", "dir", NOT_REGULAR, ERROR),
        fails(f"{CREATE} -o dir --force plain", "dir", NOT_REGULAR, ERROR),
        fails(f"{CREATE} -o no-such/new.car plain", "no-such/new.car", NO_FILE, ERROR),
        fails(
            f"{CREATE} -o plain/new.car soft", "plain/new.car", system_error(errno.ENOTDIR), ERROR
        ),
        Row(f"{CREATE} -o new/ plain", "", re.compile("ipld: new/: .*\n"), ERROR),
        Row(f"{CREATE} -o new/ --force plain", "", re.compile("ipld: new/: .*\n"), ERROR),
        Row(f"{CREATE} -o '' plain", "", re.compile("(?s).+"), ERROR),
        fails(f"{CREATE} -o new.car no-such", "no-such", NO_FILE, ERROR),
        fails(f"{CREATE} -o there.car --force no-such", "no-such", NO_FILE, ERROR),
        fails(f"{CREATE} -o there.car --force plain no-such", "no-such", NO_FILE, ERROR),
    ]
]

# An input is never overwritten, also by --force.
ONTO_INPUTS = [
    (fails(f"{CREATE} -o {name} {options} {inputs}", name, IS_INPUT, ERROR), {})
    for name, inputs in [
        ("plain", "plain"),
        ("./plain", "plain"),
        ("plain", "there.car ./plain"),
        ("hard", "plain"),
        ("soft", "plain"),
        ("plain", "soft"),
        ("no-such", "no-such"),
    ]
    for options in ("", "--force")
]

# If writing fails, nothing is left of a new file, and an old file stays.
TOO_LARGE = [
    (fails(f"{CREATE} {options} plain", name, system_error(errno.EFBIG), ERROR), {})
    for name, options in [
        ("new.car", "-o new.car"),
        ("dir/new.car", "-o dir/new.car"),
        ("there.car", "-o there.car --force"),
        ("link.car", "-o link.car --force"),
    ]
]

# The same if the system can't sync a file to the device.
NOT_SYNCED = [
    (fails(f"{CREATE} {options} plain", name, system_error(errno.EIO), ERROR), {})
    for name, options in [
        ("new.car", "-o new.car"),
        ("there.car", "-o there.car --force"),
        ("new-0.car", "-o new.car --split 1K"),
    ]
]

# Devices are written to as they are.
DEVICES = [
    (fails(f"{CREATE} -o /dev/full plain", "/dev/full", system_error(errno.ENOSPC), ERROR), {}),
    (
        fails(
            f"{CREATE} -o /dev/full --force plain", "/dev/full", system_error(errno.ENOSPC), ERROR
        ),
        {},
    ),
    (Row(f"{CREATE} -o /dev/null plain"), {}),
    (Row(f"{CREATE} -o /dev/null --force plain"), {}),
    (Row(f"{CREATE} -o /dev/stdout plain", HELLO_CAR), {}),
]

# The folder of these rows has the CAR `a.car`.
COPIED = [
    (
        Row(f"car filter -o there.car --force a.car {PART.cid}"),
        {"there.car": (THERE, car([PART.cid], [PART]))},
    ),
    (
        Row("car index -o there.car --force a.car"),
        {"there.car": (THERE, car_indexed([TOP.cid], TREE))},
    ),
]
NOT_COPIED = [
    (fails(f"car {command} -o {name} {options}", name, why, ERROR), {})
    for command, options in [("filter", f"a.car {PART.cid}"), ("index", "a.car")]
    for name, why in [("there.car", EXISTS), ("a.car", IS_INPUT)]
] + [
    (fails(f"car {command} -o a.car --force {options}", "a.car", IS_INPUT, ERROR), {})
    for command, options in [("filter", f"a.car {PART.cid}"), ("index", "a.car")]
]

# The folder of these rows also has CARs, and a file with the name of LEAF in `dir`.
EXTRACT_FILES = {"a.car": CAR, "wrong.car": car([], [TRAP, LEAF]), f"dir/{LEAF.cid}": b"there"}
EXTRACTED = [
    (
        Row(f"car extract a.car {PART.cid} {TOP.cid} -d dir"),
        {f"dir/{PART.cid}": (NEW, b"part"), f"dir/{TOP.cid}": (NEW, TOP.data)},
    ),
    # The name of a file is the usual text of its CID, also if the argument is in another base.
    (
        Row(f"car extract -d dir a.car f{PART.cid.hex()} {PART.cid}"),
        {f"dir/{PART.cid}": (NEW, b"part")},
    ),
    (Row(f"car extract --directory . a.car {LEAF.cid}"), {f"{LEAF.cid}": (NEW, LEAF.data)}),
    (
        fails(f"car extract a.car {PART.cid} {LEAF.cid} -d dir", f"dir/{LEAF.cid}", EXISTS, ERROR),
        {f"dir/{PART.cid}": (NEW, b"part")},
    ),
    (Row(f"car extract a.car {LEAF.cid} -d dir --force"), {f"dir/{LEAF.cid}": (NEW, LEAF.data)}),
    (
        fails(
            f"car extract a.car {LOST.cid} {PART.cid} -d dir", "a.car", f"{LOST.cid}: {NO_BLOCK}"
        ),
        {f"dir/{PART.cid}": (NEW, b"part")},
    ),
    (
        Row(
            f"car extract wrong.car {PART.cid} {LEAF.cid} -d .",
            "",
            message("wrong.car", f"{PART.cid}: {WRONG_DIGEST}"),
            CHECK_FAILED,
        ),
        {f"{LEAF.cid}": (NEW, LEAF.data)},
    ),
    (Row(f"car extract wrong.car {PART.cid} -d . --unchecked"), {f"{PART.cid}": (NEW, TRAP.data)}),
    (fails(f"car extract a.car {PART.cid} -d no-such", f"no-such/{PART.cid}", NO_FILE, ERROR), {}),
]
