#!/usr/bin/env python3
"""Says what is wrong with texts in DAG-JSON, and where: of each line `fromjson LEVELS VALUES TEXT`
of standard input, the text in hexadecimal digits, it writes `Kind at byte OFFSET`, or `ok`. Of a
line `floatjson LEVELS VALUES TEXT` the text may have floats.

It reads by the specifications of JSON, DAG-JSON and CIDs, on its own, and in no part by the
library: regular expressions cut the text, and a loop goes over what they cut.
"""

import base64
import math
import re
import sys

LIMIT = 1 << 127
# The same where the text may have floats: the integers of DAG-CBOR.
LIMIT_WITH_FLOATS = 1 << 64
LEXEME = re.compile(
    rb"[ \t\n\r]*(?:([{}\[\]:,])|(\"(?:[^\"\\]|\\.)*(?:\"|\\?\Z))|([^ \t\n\r{}\[\]:,]+))", re.S
)
NUMBER = re.compile(rb"-?(?:0|[1-9][0-9]*)(\.[0-9]+)?([eE][+-]?[0-9]+)?")
INTEGER = re.compile(rb"-?[0-9]+")
HEX4 = rb"[0-9A-Fa-f]{4}"
PART = re.compile(
    rb"[^\"\\\x00-\x1f]+|\\[\"\\/bfnrt]"
    rb"|\\u[dD][89abAB][0-9A-Fa-f]{2}\\u[dD][c-fC-F][0-9A-Fa-f]{2}"
    rb"|\\u(?![dD][89a-fA-F])" + HEX4,
    re.S,
)
SHORT = {
    b'"': b'"',
    b"\\": b"\\",
    b"/": b"/",
    b"b": b"\b",
    b"f": b"\f",
    b"n": b"\n",
    b"r": b"\r",
    b"t": b"\t",
}
WORDS = {b"true": True, b"false": False, b"null": None}


class Error(Exception):
    def __init__(self, kind, offset):
        super().__init__(kind, offset)
        self.text = f"{kind} at byte {offset}"


def content(lexeme):
    """The bytes of a string with its quotes, or None."""
    if len(lexeme) < 2 or not lexeme.endswith(b'"'):
        return None
    inner, at, out = lexeme[1:-1], 0, []
    while at < len(inner):
        part = PART.match(inner, at)
        if not part:
            return None
        got, at = part[0], part.end()
        if got[:2] == b"\\u":
            units = [int(x, 16) for x in got.split(b"\\u")[1:]]
            code = (
                units[0]
                if len(units) == 1
                else 0x10000 + (units[0] - 0xD800) * 1024 + (units[1] - 0xDC00)
            )
            out.append(chr(code).encode())
        elif got[:1] == b"\\":
            out.append(SHORT[got[1:]])
        else:
            out.append(got)
    return b"".join(out)


def varint(b, at):
    value = shift = 0
    for i in range(at, min(len(b), at + 10)):
        value |= (b[i] & 127) << shift
        shift += 7
        if b[i] < 128:
            return (value, i + 1) if (i == at or b[i]) and value < 1 << 64 else None
    return None


def is_cid(text):
    if text[:1] == b"b":
        body = text[1:]
        if re.search(rb"[^a-z2-7]", body) or len(body) % 8 in (1, 3, 6):
            return False
        b = base64.b32decode(body.upper() + b"=" * (-len(body) % 8))
        if base64.b32encode(b).rstrip(b"=").lower() != body:
            return False
        numbers, at = [], 0
        for _ in range(4):
            got = varint(b, at)
            if got is None:
                return False
            numbers.append(got[0])
            at = got[1]
        return numbers[0] == 1 and numbers[3] <= 64 and len(b) - at == numbers[3]
    letters = b"123456789ABCDEFGHJKLMNPQRSTUVWXYZabcdefghijkmnopqrstuvwxyz"
    if len(text) != 46 or text[:2] != b"Qm" or any(c not in letters for c in text):
        return False
    n = 0
    for c in text:
        n = n * 58 + letters.index(c)
    return n.bit_length() <= 272 and n.to_bytes(34, "big")[:2] == b"\x12\x20"


def is_base64(text):
    if re.search(rb"[^A-Za-z0-9+/]", text) or len(text) % 4 == 1:
        return False
    return base64.b64encode(base64.b64decode(text + b"=" * (-len(text) % 4))).rstrip(b"=") == text


def object_error(members):
    """
    Why an object is none, by its members, of which a value is its bytes where it is a string, a
    dict where it is an object, else None.
    """
    if not members or min(members) != b"/":
        return None
    value = members[b"/"]
    if isinstance(value, bytes):
        if len(members) > 1:
            return "Reserved"
        return None if is_cid(value) else "Link"
    if (
        isinstance(value, dict)
        and value
        and min(value) == b"bytes"
        and isinstance(value[b"bytes"], bytes)
    ):
        if len(members) > 1 or len(value) > 1:
            return "Reserved"
        return None if is_base64(value[b"bytes"]) else "Bytes"
    return None


def number_error(lexeme, floats):
    """Why a number is none of those that are read."""
    if not INTEGER.fullmatch(lexeme):
        return None if floats and math.isfinite(float(lexeme)) else "Float"
    limit = LIMIT_WITH_FLOATS if floats else LIMIT
    return None if -limit <= int(lexeme) < limit else "IntegerRange"


def lexemes(text):
    at = 0
    while True:
        found = LEXEME.match(text, at)
        if not found:
            return
        i = found.lastindex
        yield found.start(i), i, found[i]
        at = found.end()


def read(text, levels, values, floats):
    try:
        text.decode()
    except UnicodeDecodeError as error:
        raise Error("Utf8", error.start)
    all_of = list(lexemes(text))
    # An open list is a list, and an open map a dict; beside each stands the key that waits for its
    # value.
    stack, waits = [], []
    count, done, i = 0, False, 0
    may_close = may_value = True

    def put(value):
        nonlocal done, may_close, may_value
        may_close, may_value = True, False
        if not stack:
            done = True
        elif isinstance(stack[-1], dict):
            stack[-1][waits[-1]] = value
            waits[-1] = None

    while i < len(all_of):
        at, what, lexeme = all_of[i]
        if done:
            raise Error("Syntax", at)
        if what == 1 and lexeme in b"}]":
            wanted = dict if lexeme == b"}" else list
            if (
                not may_close
                or not stack
                or not isinstance(stack[-1], wanted)
                or waits[-1] is not None
            ):
                raise Error("Syntax", at)
            value = stack.pop()
            waits.pop()
            if wanted is dict:
                error = object_error(value)
                if error:
                    raise Error(error, at)
                # A link or bytes are no object and no string to what is around.
                if value and min(value) == b"/":
                    inner = value[b"/"]
                    if isinstance(inner, bytes) or (
                        isinstance(inner, dict)
                        and inner
                        and min(inner) == b"bytes"
                        and isinstance(inner[b"bytes"], bytes)
                    ):
                        value = None
            else:
                value = None
            put(value)
            i += 1
        elif not may_value:
            # Behind a value: a comma alone.
            if what != 1 or lexeme != b",":
                raise Error("Syntax", at)
            may_value, may_close = True, False
            i += 1
            if i == len(all_of):
                raise Error("Syntax", len(text))
        else:
            in_key = bool(stack) and isinstance(stack[-1], dict) and waits[-1] is None
            if what == 1 and lexeme in b",:":
                raise Error("Syntax", at)
            if what == 1:
                if in_key:
                    raise Error("Syntax", at)
                if len(stack) >= levels:
                    raise Error("TooDeep", at)
                if count >= values:
                    raise Error("TooMany", at)
                count += 1
                stack.append({} if lexeme == b"{" else [])
                waits.append(None)
                may_close = True
                i += 1
                continue
            if what == 2:
                string = content(lexeme)
                if string is None:
                    raise Error("Syntax", at)
                if i + 1 < len(all_of) and all_of[i + 1][2] == b":":
                    if not in_key:
                        raise Error("Syntax", at)
                    if string in stack[-1]:
                        raise Error("DuplicateKey", at)
                    waits[-1] = string
                    may_close = True
                    i += 2
                    continue
                if in_key:
                    raise Error("Syntax", at)
                if count >= values:
                    raise Error("TooMany", at)
                count += 1
                put(string)
                i += 1
                continue
            number = NUMBER.fullmatch(lexeme)
            if lexeme not in WORDS and not number or in_key:
                raise Error("Syntax", at)
            error = number_error(lexeme, floats) if number else None
            if error:
                raise Error(error, at)
            if count >= values:
                raise Error("TooMany", at)
            count += 1
            put(None)
            i += 1
    if not done:
        raise Error("End", len(text))


def said(text, levels=1024, values=(1 << 64) - 1, floats=False):
    try:
        read(text, levels, values, floats)
    except Error as error:
        return error.text
    return None


def main():
    sys.set_int_max_str_digits(0)
    for line in sys.stdin:
        word, levels, values, *text = line.split()
        floats = word == "floatjson"
        print(said(bytes.fromhex("".join(text)), int(levels), int(values), floats) or "ok")


if __name__ == "__main__":
    main()
