#!/usr/bin/env python3
"""Serves the blocks of CARs on the loopback address, by the Trustless Gateway specification.

usage: python3 -m tests.gateway [--port N] [--lie NAME] FILE..

    GET /ipfs/CID[/PATH]?format=car    blocks as a CARv1, from the CID to the end of the path and
                                       below it, with dag-scope=block|entity|all, dups=y|n and
                                       entity-bytes=FROM:TO
    GET /ipfs/CID[/PATH]?format=raw    the block at the end of the path

The header Accept with `application/vnd.ipld.car` or `application/vnd.ipld.raw` does the same as
`format`. Each FILE is a CARv1 with one root. With --lie the gateway lies in one of the ways that
`Lie` lists. Run it at the top of the repository. It prints its URL, and serves until it is stopped.
"""

import argparse
import contextlib
import enum
import http.server
import itertools
import pathlib
import threading
import urllib.parse

from .ipld import damaged
from .ipld.formats import IDENTITY, RAW, car, cid_from, framed, raw, varint
from .ipld.unixfs import FILE, RAW_DATA, SHARD, folder
from .ipld.unixfs_reader import Fault, Invalid, Reader, cid_parts

CAR_TYPE, RAW_TYPE = "application/vnd.ipld.car", "application/vnd.ipld.raw"
TYPES = {"car": CAR_TYPE, "raw": RAW_TYPE}
SCOPES = ("block", "entity", "all")
# The blocks with which the gateway lies.
FOREIGN = raw(b"a block that nobody asked for")
OTHER_NODE = folder({}).block


class Lie(enum.Enum):
    """A way in which the gateway lies."""

    OTHER_BLOCK = "another block after the CID of the last one"
    CHANGED_BYTE = "a changed byte in the middle of the longest block"
    CUT_IN_BLOCK = "a body that ends in the middle of the last block"
    CUT_BETWEEN_BLOCKS = "a body that ends before the last block"
    OTHER_ORDER = "the blocks in reverse order"
    REPEATED_BLOCKS = "each block twice"
    ENDLESS = "blocks of other CIDs without an end"
    REDIRECT = "a redirect to the same URL"
    EMPTY_BODY = "an empty body with status 200"
    WRONG_ROOT = "another root in the header of the CAR"


class Refused(Exception):
    """The status of an answer without blocks, and the reason."""


# The blocks of an answer


def links_of(reader, cid):
    """Returns the links of a block of UnixFS or a raw block."""
    if cid_parts(cid)[0] == RAW:
        reader.block(cid)
        return []
    return [it.cid for it in reader.node(cid)[0]]


def everything(reader, cid):
    """Yields the CID of each block below a CID, the block of the CID first, and depth first."""
    pending = [cid]
    while pending:
        it = pending.pop()
        yield it
        pending += reversed(links_of(reader, it))


def file_range(reader, cid, first, last):
    """
    Yields the CIDs of the blocks of a file that have one of these bytes, and of those above them.
    The root is always among them. `last` is included. A negative number counts from the end.
    """
    size = reader.part(cid).size
    first = max(0, first + size) if first < 0 else first
    last = size - 1 if last is None else last + size if last < 0 else last
    pending = [(cid, 0)]
    while pending:
        it, offset = pending.pop()
        yield it
        part, below = reader.part(it), []
        offset += len(part.head)
        for child, length in part.children:
            if offset <= last and first < offset + length:
                below.append((child, offset))
            offset += length
        pending += reversed(below)


def entity(reader, cid, first, last):
    """Yields the CIDs of the blocks of a file, or of a folder without those of its entries."""
    kind = FILE if cid_parts(cid)[0] == RAW else reader.node(cid)[1].kind
    if kind in (FILE, RAW_DATA):
        yield from file_range(reader, cid, first, last)
    elif kind == SHARD:
        yield from (it for it, _ in reader.shards(cid))
    else:
        reader.block(cid)
        yield cid


def path_of(reader, cid, names):
    """Returns the CIDs of the blocks before the end of a path, and the CID at its end."""
    before = []
    for name in names:
        *steps, cid = reader.steps(cid, name)
        before += steps
    return before, cid


def without_repeats(cids):
    return list(dict.fromkeys(cids))


class Answer:
    """The blocks that a request asks for."""

    def __init__(self, blocks, target, accept):
        """
        Reads the target of a request and its header Accept. Raises `Refused` if there is no answer.
        """
        split = urllib.parse.urlsplit(target)
        self.options = dict(urllib.parse.parse_qsl(split.query, keep_blank_values=True))
        self.type = self.content_type(accept)
        if self.type not in TYPES.values():
            raise Refused(406, "the format is neither car nor raw")
        slash, root, *names = split.path.lstrip("/").split("/")
        if slash != "ipfs":
            raise Refused(404, "the path does not begin with /ipfs/")
        try:
            root = cid_from(root)
            cid_parts(root)
        except (ValueError, Invalid) as error:
            raise Refused(400, "the path has no CID") from error
        self.reader = Reader(blocks)
        names = [urllib.parse.unquote_to_bytes(it) for it in names if it]
        try:
            before, self.cid = path_of(self.reader, root, names)
            self.cids = [self.cid] if self.type == RAW_TYPE else self.of_car(before)
            self.blocks = [(it, self.reader.block(it)) for it in self.cids]
        except Fault as fault:
            raise Refused(404, str(fault)) from fault

    def content_type(self, accept):
        """
        Returns the type of the answer. The option `format` is preferred to Accept, whose parameters
        become options if its type is the same.
        """
        wanted = list(TYPES.values())
        if "format" in self.options:
            wanted = [TYPES.get(self.options["format"])]
        for each in accept.split(","):
            name, *parameters = (it.strip() for it in each.split(";"))
            if name in wanted:
                pairs = (it.partition("=") for it in parameters)
                self.options = {**{key: value for key, _, value in pairs}, **self.options}
                return name
        return wanted[0] if "format" in self.options else None

    def of_car(self, before):
        """Returns the CIDs of the blocks of a CAR."""
        scope = self.options.get("dag-scope", "all")
        dups = self.options.get("dups", self.options.get("car-dups", "n"))
        if scope not in SCOPES or dups not in ("y", "n"):
            raise Refused(400, "dag-scope or dups has no such value")
        first, last = self.range()
        if "entity-bytes" in self.options:
            scope = "entity"
        if scope == "block":
            cids = [self.cid]
        elif scope == "entity":
            cids = entity(self.reader, self.cid, first, last)
        else:
            cids = everything(self.reader, self.cid)
        self.type += f"; version=1; order=dfs; dups={dups}"
        # A CID with the identity function contains its block.
        cids = [it for it in [*before, *cids] if cid_parts(it)[1] != IDENTITY]
        return cids if dups == "y" else without_repeats(cids)

    def range(self):
        """Returns the first byte and the last that entity-bytes has, or None as the last."""
        first, colon, last = self.options.get("entity-bytes", "0:*").partition(":")
        try:
            if not colon:
                raise ValueError
            return int(first), None if last == "*" else int(last)
        except ValueError as error:
            raise Refused(400, "entity-bytes is not FROM:TO") from error

    def body(self, lie):
        """Returns the pieces of the body, which lies if a lie is given."""
        if lie == Lie.EMPTY_BODY:
            return []
        blocks = changed(self.blocks, lie)
        if self.type == RAW_TYPE:
            ((_, data),) = blocks
            if lie == Lie.ENDLESS:
                return itertools.repeat(FOREIGN.data)
            return [data[: len(data) // 2] if lie == Lie.CUT_IN_BLOCK else data]
        root = FOREIGN.cid if lie == Lie.WRONG_ROOT else self.cid
        header, sections = car([root], []), [framed(cid + data) for cid, data in blocks]
        if lie == Lie.OTHER_ORDER:
            sections.reverse()
        if lie == Lie.REPEATED_BLOCKS:
            sections = [it for section in sections for it in (section, section)]
        if lie == Lie.ENDLESS:
            sections = foreign_sections()
        elif lie == Lie.CUT_BETWEEN_BLOCKS:
            sections = sections[:-1]
        elif lie == Lie.CUT_IN_BLOCK:
            sections[-1:] = [it[: len(it) - max(1, len(it) // 2)] for it in sections[-1:]]
        return itertools.chain([header], sections)


def changed(blocks, lie):
    """Returns blocks of which one isn't that of its CID, if the lie is one of these."""
    blocks = list(blocks)
    if not blocks:
        return blocks
    if lie == Lie.OTHER_BLOCK:
        cid, _ = blocks[-1]
        blocks[-1] = cid, FOREIGN.data if cid_parts(cid)[0] == RAW else OTHER_NODE.data
    elif lie == Lie.CHANGED_BYTE:
        at = max(range(len(blocks)), key=lambda it: len(blocks[it][1]))
        cid, data = blocks[at]
        middle = len(data) // 2
        byte = data[middle] if data else 0
        blocks[at] = cid, data[:middle] + bytes([byte ^ 0x41]) + data[middle + 1 :]
    return blocks


def foreign_sections():
    for number in itertools.count():
        block = raw(FOREIGN.data + varint(number))
        yield framed(block.cid + block.data)


# The server


class Handler(http.server.BaseHTTPRequestHandler):
    protocol_version = "HTTP/1.1"

    def handle(self):
        # A client may close the connection before the end of the body.
        with contextlib.suppress(ConnectionError):
            super().handle()

    def do_GET(self):
        self.answer(True)

    def do_HEAD(self):
        self.answer(False)

    def answer(self, with_body):
        gateway = self.server.gateway
        gateway.requests.append(self.path)
        if gateway.lie == Lie.REDIRECT:
            self.send_response(301)
            self.send_header("Location", self.path)
            self.send_header("Content-Length", "0")
            self.end_headers()
            return
        try:
            answer = Answer(gateway.blocks, self.path, self.headers.get("Accept", ""))
        except Refused as refused:
            self.send_error(*refused.args)
            return
        body = answer.body(gateway.lie)
        self.send_response(200)
        self.send_header("Content-Type", answer.type)
        self.send_header("X-Content-Type-Options", "nosniff")
        self.send_header("Cache-Control", "public, max-age=29030400, immutable")
        if gateway.lie == Lie.ENDLESS:
            self.send_header("Connection", "close")
        else:
            body = [b"".join(body)]
            self.send_header("Content-Length", str(len(body[0])))
        self.end_headers()
        for piece in body if with_body else []:
            self.wfile.write(piece)

    def log_message(self, *_):
        pass


class Server(http.server.ThreadingHTTPServer):
    daemon_threads = True
    # The handlers of an endless body end with the process.
    block_on_close = False


class Gateway:
    """
    A gateway on the loopback address, over blocks that a dict has by CID. It serves within a `with`
    statement. `url` is where, and `requests` has the target of each request so far.
    """

    def __init__(self, blocks, lie=None, port=0):
        self.blocks, self.lie, self.requests = blocks, lie, []
        self.server = Server(("127.0.0.1", port), Handler)
        self.server.gateway = self
        self.url = "http://127.0.0.1:%d" % self.server.server_address[1]

    def __enter__(self):
        self.thread = threading.Thread(target=self.server.serve_forever, args=(0.05,), daemon=True)
        self.thread.start()
        return self

    def __exit__(self, *_):
        self.server.shutdown()
        self.server.server_close()
        self.thread.join()

    def url_of(self, cid, path="", **options):
        """Returns the URL of a CID and a path. In the names of options `_` stands for `-`."""
        query = urllib.parse.urlencode({it.replace("_", "-"): to for it, to in options.items()})
        return f"{self.url}/ipfs/{cid}{urllib.parse.quote(path)}" + (f"?{query}" if query else "")


def main():
    parser = argparse.ArgumentParser(
        prog="tests.gateway",
        description=__doc__,
        formatter_class=argparse.RawDescriptionHelpFormatter,
        usage=argparse.SUPPRESS,
    )
    parser.add_argument("--port", type=int, default=0, help=argparse.SUPPRESS)
    parser.add_argument("--lie", choices=[it.name for it in Lie], help=argparse.SUPPRESS)
    parser.add_argument("files", nargs="+", type=pathlib.Path, help=argparse.SUPPRESS)
    given = parser.parse_args()
    blocks = {}
    for path in given.files:
        found, error = damaged.read(path.read_bytes())
        if error:
            parser.exit(1, f"{path}: not a whole CARv1 with one root\n")
        blocks.update((cid, data) for _, cid, data in found)
    with Gateway(blocks, Lie[given.lie] if given.lie else None, given.port) as gateway:
        print(gateway.url, flush=True)
        with contextlib.suppress(KeyboardInterrupt):
            threading.Event().wait()


if __name__ == "__main__":
    main()
