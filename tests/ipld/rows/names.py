"""Rows of all commands for file names that are empty, and for texts that are not CIDs."""

import errno
import shlex

from ..blocks import EMPTY, OLD_CID
from ..formats import BASE58
from . import ERROR, fails, system_error

EMPTY_NAMES = [
    fails(command, "''", system_error(errno.ENOENT), ERROR)
    for command in [
        "show ''",
        "links ''",
        "check ''",
        "car list ''",
        "car missing ''",
        "car create -o - raw:",
        "car create -o - car:",
        "car create -o '' raw:plain",
        "encode ''",
        "encode -o '' value.json",
    ]
]

LENGTH = len(str(EMPTY.cid))
NOT_CIDS = [
    row
    for text, why in [
        ("", "the text is empty"),
        ("/ipfs/", "the text is empty"),
        # In base58btc the second letter is one byte, which is in the place of the version.
        ("zz", f"the decoded bytes are invalid: unknown CID version {BASE58.index('z')}"),
        ("9", "unknown multibase prefix '9'"),
        ("/ipfs/9", "unknown multibase prefix '9'"),
        ("Qm", "a CID that begins with Qm has 46 characters"),
        (f"/ipfs/{OLD_CID}/a", "a path follows it"),
        (f"/ipfs/{EMPTY.cid}/a", f"a path follows it, from byte {len('/ipfs/') + LENGTH}"),
        (str(EMPTY.cid)[:-1] + "I", f"invalid character 'I' at byte {LENGTH - 1}"),
        ("f" * 200, "no CID has a text of this length"),
        ("bae", "the decoded bytes are invalid: the bytes end before the CID does"),
    ]
    for name in [shlex.quote(text)]
    for row in [
        fails(f"cid {name}", name, f"no such file, and not a CID: {why}", ERROR),
        fails(f"cid -t {name}", name, f"not a CID: {why}"),
        fails(f"car extract a.car {name}", name, f"not a CID: {why}", ERROR),
        fails(f"car create -o - --root {name} raw:plain", name, f"not a CID: {why}", ERROR),
    ]
]
