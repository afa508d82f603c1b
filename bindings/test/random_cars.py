"""Reads random CARs, and CARs that are cut and changed. Compares the library with a reader that
shares no code with it.

usage: python random_cars.py [COUNT [SEED]]
"""

import ctypes
import hashlib
import io
import sys
from ctypes import byref, c_size_t, c_uint32, c_uint64

import car_reader
import kombilad
import random_blocks
import raw
import reader
from car_cases import made, read

NAMES = {status.value: status.name for status in kombilad.Status}
NONE = 2**64 - 7


class Place(ctypes.Structure):
    _fields_ = [("version", c_uint64), ("at", c_uint64), ("end", c_uint64)]

    def numbers(self):
        return self.version, self.at, self.end


class Span(ctypes.Structure):
    _fields_ = [("offset", c_size_t), ("len", c_size_t)]


def declared(name, *arguments):
    function = raw.library[name]
    function.argtypes, function.restype = arguments, c_uint32
    return function


BYTES = (ctypes.c_char_p, c_size_t)
car_open_part = declared(
    "kombilad_car_open_part",
    *BYTES,
    c_uint32,
    c_size_t,
    ctypes.POINTER(Place),
    ctypes.c_void_p,
    c_size_t,
    ctypes.POINTER(c_size_t),
    ctypes.POINTER(c_uint64),
    ctypes.POINTER(c_uint64),
)
car_next_part = declared(
    "kombilad_car_next_part",
    *BYTES,
    c_uint32,
    c_size_t,
    ctypes.POINTER(Place),
    ctypes.POINTER(Span),
    ctypes.POINTER(Span),
    ctypes.POINTER(c_uint64),
    ctypes.POINTER(c_uint64),
)
verify = declared("kombilad_verify", *BYTES, *BYTES)


def expected(call, *arguments):
    try:
        return call(*arguments)
    except reader.Rejected as why:
        return why.name, why.offset


def compare(what, data, ours, theirs):
    if ours != theirs:
        sys.exit(
            f"random_cars: {what} of {data.hex()}: the library says {ours!r}, the reader {theirs!r}"
        )


def opened_part(data, is_all, limit):
    """Returns the result of kombilad_car_open_part, or ("MORE", n) if it needs n more bytes."""
    place, needed = Place(7, 7, 7), c_size_t(NONE)
    roots, more, offset = (raw.CidBytes * 300)(), c_uint64(NONE), c_uint64(NONE)
    arguments = byref(place), roots, 300, byref(needed), byref(more), byref(offset)
    status = car_open_part(data, len(data), is_all, limit, *arguments)
    if status == 0:
        if (more.value, offset.value) != (NONE, NONE):
            return "wrote what it doesn't return"
        return place.numbers(), [bytes(root.bytes)[: root.len] for root in roots[: needed.value]]
    if (place.numbers(), needed.value) != ((7, 7, 7), NONE):
        return "wrote where it failed"
    if NAMES[status] == "CAR_MORE":
        return "MORE", more.value if offset.value == NONE else "and an offset"
    return NAMES[status], offset.value if more.value == NONE else "and a number"


def section_part(data, is_all, limit, numbers):
    """Returns the result of kombilad_car_next_part for the bytes from a place on."""
    place, cid, block = Place(*numbers), Span(7, 7), Span(7, 7)
    more, offset = c_uint64(NONE), c_uint64(NONE)
    arguments = byref(place), byref(cid), byref(block), byref(more), byref(offset)
    status = car_next_part(data, len(data), is_all, limit, *arguments)
    if status == 0:
        if (more.value, offset.value) != (NONE, NONE):
            return "wrote what it doesn't return"
        return (cid.offset, cid.len), (block.offset, block.len), place.numbers()
    if (place.numbers(), cid.offset, cid.len, block.offset, block.len) != (numbers, 7, 7, 7, 7):
        return "wrote where it failed"
    if NAMES[status] == "CAR_DONE":
        return None if (more.value, offset.value) == (NONE, NONE) else "wrote an offset"
    if NAMES[status] == "CAR_MORE":
        return "MORE", more.value if offset.value == NONE else "and an offset"
    return NAMES[status], offset.value if more.value == NONE else "and a number"


def is_cut(call, data, *arguments):
    """Returns whether the plain reader reaches the end of the bytes too early."""
    found = expected(call, data, *arguments)
    return found in (("CAR_UNEXPECTED_END", len(data)), ("CAR_SHORT_PAYLOAD", len(data)))


def fed(source, data, at, read, what):
    """
    Returns the result of a call that gets the bytes from an offset on: a few at first, and then as
    many as it needs.
    """
    last = at + source.random.choice([0, 0, 1, 9, 30, 200])
    for _ in range(100):
        last = min(last, len(data))
        found = read(data[at:last], 0)
        if found is None or found[0] != "MORE":
            compare(f"{what} of a part", data, read(data[at:], 1), found)
            return found
        if last == len(data):
            return read(data[at:], 1)
        compare(f"{what} up to {last} asks for bytes", data, found[1] >= 1, True)
        last += found[1] + source.random.choice([0, 0, 0, 1, 50])
    raise AssertionError


def end_of(theirs, data):
    """Returns the end of the sections in the place of the library, which has none for version 1."""
    return 2**64 - 1 if theirs[0] == 1 else theirs[2]


def compare_part(source, data):
    """Compares the calls on parts of a CAR. Returns whether it is valid to its end."""
    limit = source.random.choice([10**6, 10**6, 10**6, 50, 10, 9])
    theirs = expected(car_reader.opened, data, limit)
    ours = fed(source, data, 0, lambda part, is_all: opened_part(part, is_all, limit), "open")
    if isinstance(theirs[0], str):
        compare(f"open parts within {limit}", data, ours, theirs)
        return False
    version, at, end, roots = theirs
    compare("open parts", data, ours, ((version, at, end_of(theirs, data)), roots))
    limit = source.random.choice([10**6, 10**6, 10**6, 30, 5, 4])
    for _ in range(1000):
        theirs = expected(car_reader.section, data, at, end, limit)
        place = version, at, 2**64 - 1 if version == 1 else end
        ours = fed(
            source,
            data,
            at,
            lambda part, is_all: section_part(part, is_all, limit, place),
            "section",
        )
        if theirs is None or isinstance(theirs[0], str):
            compare(f"the section at {at} of parts", data, ours, theirs)
            return theirs is None
        (cid, cid_len), (block, block_len), following = theirs
        plain = (cid - at, cid_len), (block - at, block_len), (version, following, place[2])
        compare(f"the section at {at} of parts", data, ours, plain)
        at = following
    raise AssertionError


class Trickle(io.BytesIO):
    """A file that returns few bytes at a time."""

    def __init__(self, source, data):
        super().__init__(data)
        self.most = source.random.choice([1, 7, 60, 10**6])

    def read(self, size=-1):
        return super().read(min(size, self.most))


def compare_package(source, data):
    """Compares the package's reader of a file."""
    limits = source.random.choice([10**6, 50, 10]), source.random.choice([10**6, 30, 5])
    head, sections, error = read(data, *limits)
    ours, found, failed = None, [], None
    try:
        reader_of = kombilad.CarReader(
            Trickle(source, data), header_limit=limits[0], section_limit=limits[1]
        )
        ours = [reader_of.version, [bytes(root).hex() for root in reader_of.roots]]
        for cid, block in reader_of:
            found.append([bytes(cid).hex(), block.hex()])
    except kombilad.KombiladError as why:
        failed = [why.name, why.offset]
    theirs = head, [section[:2] for section in sections], error
    compare(f"CarReader within {limits}", data, (ours, found, failed), theirs)


def compare_needs(data):
    """
    Checks the number of bytes that the library needs after each beginning of a CAR: with fewer, the
    plain reader reaches the end of the bytes too early.
    """
    for end in range(len(data)):
        found = opened_part(data[:end], 0, 10**6)
        cut = is_cut(car_reader.opened, data[:end], 10**6)
        if found[0] != "MORE":
            compare(f"open up to {end}", data, found, opened_part(data, 1, 10**6))
            continue
        compare(f"open up to {end} needs more", data, cut, True)
        for more in range(min(found[1], len(data) - end)):
            compare(
                f"open up to {end} needs more than {more}",
                data,
                is_cut(car_reader.opened, data[: end + more], 10**6),
                True,
            )


def compare_digest(source):
    choose = source.random
    block = choose.randbytes(choose.choice([0, 1, 32, 40]))
    code, digest = choose.choice(
        [
            (0x12, hashlib.sha256(block).digest()),
            (0, block),
            (0x13, hashlib.sha512(block).digest()),
            (0xB220, hashlib.blake2b(block, digest_size=32).digest()),
            (0x11, hashlib.sha1(block).digest()),
        ]
    )
    cid = b"\x01\x55" + random_blocks.varint(code) + bytes([len(digest)]) + digest
    if choose.random() < 0.2:
        cid, code = b"\x12\x20" + hashlib.sha256(block).digest(), 0x12
    other = choose.random() < 0.3
    if other:
        block += b"x"
    theirs = "UNKNOWN_HASH" if code == 0x11 else "WRONG_DIGEST" if other else "OK"
    if choose.random() < 0.2:
        cid, theirs = cid[:-1], "CID_END"
    compare(
        "the digest of " + block.hex(), cid, NAMES[verify(cid, len(cid), block, len(block))], theirs
    )


def main():
    count = int(sys.argv[1]) if len(sys.argv) > 1 else 10_000
    source = random_blocks.Source(int(sys.argv[2]) if len(sys.argv) > 2 else 1)
    whole = 0
    for at in range(count):
        data = made(source)
        if at % 2:
            data = source.changed(data)
        whole += compare_part(source, data)
        compare_package(source, data)
        compare_digest(source)
        if at % 500 == 0:
            for end in range(len(data)):
                compare_part(source, data[:end])
            compare_needs(data)
    print(
        f"random_cars: {count} CARs, of which {whole} are whole, their beginnings and as many digests: no difference"
    )


if __name__ == "__main__":
    main()
