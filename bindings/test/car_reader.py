"""A plain reader of CARs, with which the tests of the bindings compare. It shares no code with the
library.

`Rejected` of `reader` has the name of the error in `kombilad.h`, and its offset.
"""

import struct

import reader
from reader import Rejected

PRAGMA = b"\xa1\x67version\x02"
NO_LIMIT = 2**64 - 1


def length(data, at, end, cut):
    """Returns the varint at an offset, and the offset after it."""
    number = 0
    for place in range(at, at + 10):
        if place >= min(end, len(data)):
            raise Rejected(cut, min(end, len(data)))
        byte = data[place]
        if place == at + 9 and byte > 1:
            raise Rejected("CAR_LENGTH_TOO_LARGE", place)
        if place > at and byte == 0:
            raise Rejected("CAR_LENGTH_NOT_SHORTEST", place)
        number |= (byte & 127) << 7 * (place - at)
        if byte < 128:
            return number, place + 1
    raise AssertionError


def framed(data, at, end, limit):
    """Returns the beginning and the end of the bytes after the length at an offset."""
    cut = "CAR_SHORT_PAYLOAD" if len(data) < end else "CAR_UNEXPECTED_END"
    size, start = length(data, at, end, cut)
    if size == 0:
        raise Rejected("CAR_EMPTY", at)
    if size > limit:
        raise Rejected("CAR_TOO_LONG", at)
    if start + size > min(end, len(data)):
        raise Rejected(cut, min(end, len(data)))
    return start, start + size


def header(roots):
    count = bytes([0x80 | len(roots)]) if len(roots) < 24 else bytes([0x98, len(roots)])
    links = b"".join(
        b"\xd8\x2a\x58" + bytes([len(root) + 1]) + b"\0" + root
        if len(root) > 22
        else b"\xd8\x2a" + bytes([0x41 + len(root)]) + b"\0" + root
        for root in roots
    )
    return b"\xa2\x65roots" + count + links + b"\x67version\x01"


def roots_of(data, start, end):
    """Returns the roots in the block of a header."""
    try:
        block = reader.read(data[start:end], 2, 10**9, reader.Read)
    except Rejected as why:
        if why.name.startswith("LINK "):
            raise Rejected("LINK_" + why.name[5:], start)
        raise Rejected(why.name if why.name.startswith("TOO_") else "BLOCK_" + why.name, start)
    if block.canonical != header(block.links):
        raise Rejected("CAR_NOT_A_HEADER", start)
    return block.links


def opened(data, limit):
    """Returns the version, the beginning and the end of the sections, and the roots."""
    start, behind = framed(data, 0, len(data), limit)
    if data[start:behind] != PRAGMA:
        return 1, behind, len(data), roots_of(data, start, behind)
    if len(data) < 51:
        raise Rejected("CAR_UNEXPECTED_END", len(data))
    begin, size = struct.unpack("<QQ", data[27:43])
    if begin < 51 or begin + size >= 2**64:
        raise Rejected("CAR_PAYLOAD", 27)
    if len(data) < begin:
        raise Rejected("CAR_UNEXPECTED_END", len(data))
    start, behind = framed(data, begin, begin + size, limit)
    return 2, behind, begin + size, roots_of(data, start, behind)


def cid_len(content):
    """Returns the number of bytes of the CID with which the content begins."""
    if content[:2] == b"\x12\x20":
        size, at = 32, 2
    elif content in (b"", b"\x12"):
        raise Rejected("CID_END")
    else:
        try:
            version, at = reader.varint(content, 0)
            if version == 0:
                raise Rejected("EXPLICIT_VERSION_0")
            if version != 1:
                raise Rejected("UNKNOWN_VERSION")
            _, at = reader.varint(content, at)
            _, at = reader.varint(content, at)
            size, at = reader.varint(content, at)
        except Rejected as why:
            raise Rejected("CID_" + why.name)
    if size > 64:
        raise Rejected("CID_DIGEST_TOO_LONG")
    if len(content) - at < size:
        raise Rejected("CID_END")
    return at + size


def section(data, at, end, limit=NO_LIMIT):
    """
    Returns the positions of the CID and the block of a section, and the beginning of the next one.
    Returns None at the end of the sections.
    """
    if at >= end:
        return None
    if at >= len(data):
        raise Rejected("CAR_SHORT_PAYLOAD", at)
    start, behind = framed(data, at, end, limit)
    try:
        middle = start + cid_len(data[start:behind])
    except Rejected as why:
        raise Rejected(why.name, start)
    return (start, middle - start), (middle, behind - middle), behind
