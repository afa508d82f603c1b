"""Finds the blocks and the first error of a CAR that was cut or changed, without the program."""

import importlib.util
import pathlib
import re

from .blocks import INLINE, LEAF, LOST, TOP
from .formats import (
    BLAKE2B_256,
    IDENTITY,
    SHA2_256,
    SHA2_512,
    Cid,
    digest_by,
    hash_of,
    varint,
)

CARS = pathlib.Path(__file__).resolve().parents[2] / "crates" / "test_rows" / "cars.py"
# The limit of a section and a header without --limit.
LIMIT = 8 << 20
# The message about each error that cars.py names.
SECTION_ERRORS = {
    "UnexpectedEnd": "truncated: the section that begins at byte {section} is cut off",
    "LengthNotShortest": "the section length is not a minimal varint",
    "LengthTooLarge": "the section length is 2^64 or more",
    "Empty": "the section length is zero",
    "TooLong": r"the section is .* bytes, over the limit \(raise it with --limit\),",
    "Cid": "the section does not begin with a CID: .*",
}
HEADER_ERRORS = {
    "UnexpectedEnd": "not a CAR, or truncated: the header is cut off",
    "LengthNotShortest": "not a CAR: the header length is not a minimal varint",
    "LengthTooLarge": "not a CAR: the header length is 2^64 or more",
    "Empty": "not a CAR: the header length is zero",
    "TooLong": r"the CAR header is .* bytes, over the limit \(raise it with --limit\),",
}
# The header of a CAR with one root, before the length of the root and after the root.
HEADER_FRONT = b"\xa2\x65roots\x81\xd8\x2a\x58"
HEADER_END = b"\x67version\x01"
COMPUTED = (IDENTITY, SHA2_256, SHA2_512, BLAKE2B_256)
# The links of the blocks of CAR, and of the CIDs that contain a block.
LINKS = {TOP.cid: [LEAF.cid, LOST.cid, INLINE.cid], INLINE.cid: [LOST.cid]}


def load_reader():
    """Returns the module cars.py."""
    spec = importlib.util.spec_from_file_location("cars", CARS)
    module = importlib.util.module_from_spec(spec)
    spec.loader.exec_module(module)
    return module


reader = load_reader()


def is_header(data):
    """Returns whether bytes are a header with one root."""
    root = data[len(HEADER_FRONT) + 2 : -len(HEADER_END)]
    return data == HEADER_FRONT + varint(
        len(root) + 1
    ) + b"\0" + root + HEADER_END and reader.cid_end(root, 0) == len(root)


def root_of(data):
    """Returns the root of a CAR of version 1, or None if its header isn't one with one root."""
    try:
        start, end = reader.framed(data, 0, reader.NO_END, LIMIT)
    except reader.Fault:
        return None
    if not is_header(data[start:end]):
        return None
    return Cid(data[start + len(HEADER_FRONT) + 2 : end - len(HEADER_END)])


def read(data):
    """
    Returns the offset, the CID and the bytes of each block of a CAR of version 1, and the pattern
    and the offset of the error after them, or None.
    """
    blocks = []
    try:
        start, at = reader.framed(data, 0, reader.NO_END, LIMIT)
        if not is_header(data[start:at]):
            return blocks, (".*header.*", start)
        while at < len(data):
            start, end = reader.framed(data, at, reader.NO_END, LIMIT)
            section = data[start:end]
            middle = reader.cid_end(section, 0)
            if middle is None:
                raise reader.Fault("Cid", at, start)
            blocks.append((at, Cid(section[:middle]), section[middle:]))
            at = end
    except reader.Fault as fault:
        name, section, offset = fault.args
        errors = SECTION_ERRORS if section else HEADER_ERRORS
        return blocks, (errors[name].format(section=section), offset)
    return blocks, None


def message_about(file, error):
    """Returns what standard error has to match for an error, or for None."""
    if error is None:
        return ""
    pattern, offset = error
    return re.compile(re.escape(f"ipld: {file}: ") + f"{pattern} at byte {offset}( \\(.*\\))?\n")


def missing(blocks):
    """
    Returns the root of CAR and the links of these blocks of it, in the order in which they are met,
    without those whose block is among them.
    """
    found, pending = [], [[TOP.cid], *(LINKS.get(cid, []) for _, cid, _ in blocks)]
    for links in pending:
        links = list(links)
        while links:
            link = links.pop(0)
            if link == INLINE.cid:
                links = LINKS[link] + links
            elif link not in found:
                found.append(link)
    cids = [cid for _, cid, _ in blocks]
    return [link for link in found if link not in cids]


def wrong_digests(blocks):
    """
    Returns the lines about blocks whose digest is wrong or not computed, whether one is wrong, and
    whether one is not computed.
    """
    lines, wrong, not_computed = [], False, False
    for offset, cid, data in blocks:
        function, digest = hash_of(cid)
        if function not in COMPUTED:
            lines.append(
                f"{cid} at byte {offset}: the hash function {function:#x} is not computed here"
            )
            not_computed = True
        elif digest != digest_by(function, data):
            lines.append(f"{cid} at byte {offset}: the block has another digest")
            wrong = True
    return lines, wrong, not_computed
