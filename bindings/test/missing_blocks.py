"""Runs python/examples/missing_blocks.py over random CAR files by two processes. Compares the
result with the blocks of these files. If the program `ipld` is built, also compares it with that of
`ipld car missing --by-cid` over the merged files.

usage: python missing_blocks.py FOLDER [FILES [BLOCKS [SEED]]]

It writes the files to the folder, which it creates. BLOCKS is the number of blocks for each file.
It also tests that the processes listen only on the loopback address and end by themselves, and that
unreadable files are reported.
"""

import hashlib
import os
import pathlib
import random
import signal
import struct
import subprocess
import sys
import time

sys.dont_write_bytecode = True
sys.path.insert(0, str(pathlib.Path(__file__).resolve().parent.parent.parent / ".ci"))
from built import NotBuilt, built  # noqa: E402

import reader  # noqa: E402

HERE = pathlib.Path(__file__).resolve().parent
EXAMPLE = HERE.parent / "python" / "examples" / "missing_blocks.py"
DAG_CBOR, DAG_PB, RAW, DAG_JSON = 0x71, 0x70, 0x55, 0x0129
# The limit for each run of the example.
SECONDS = 120


# ---- Blocks and CARs


def varint(number):
    bytes_of = bytearray()
    while number > 127:
        bytes_of.append(number & 127 | 128)
        number >>= 7
    return bytes(bytes_of) + bytes([number])


def cid_of(codec, block):
    return b"\1" + varint(codec) + b"\x12\x20" + hashlib.sha256(block).digest()


def head(major, argument):
    short = next((it for it in range(4) if argument < 1 << (8 << it)), 3)
    return (
        bytes([major << 5 | argument])
        if argument < 24
        else bytes([major << 5 | 24 + short]) + argument.to_bytes(1 << short, "big")
    )


def link(cid):
    return b"\xd8\x2a" + head(2, len(cid) + 1) + b"\0" + cid


def cbor(chance, links):
    """Returns a block with these links, and with a number that distinguishes it from others."""
    return (
        b"\xa2"
        + b"\x61l"
        + head(4, len(links))
        + b"".join(map(link, links))
        + b"\x61n"
        + head(0, chance.getrandbits(40))
    )


def node(chance, links):
    """Returns a node of DAG-PB with these links."""
    messages = [
        b"\x0a"
        + varint(len(cid))
        + cid
        + chance.choice([b"", b"\x12\x01a", b"\x18\x07", b"\x12\x00\x18\x80\x01"])
        for cid in links
    ]
    data = b"\x0a\x05" + chance.randbytes(5)
    framed = b"".join(b"\x12" + varint(len(it)) + it for it in messages)
    return data + framed if chance.random() < 0.5 else framed + data


def header(roots):
    return b"\xa2\x65roots" + head(4, len(roots)) + b"".join(map(link, roots)) + b"\x67version\x01"


def car(roots, blocks, version=1):
    framed = [header(roots)] + [cid + block for cid, block in blocks]
    payload = b"".join(varint(len(it)) + it for it in framed)
    if version == 1:
        return payload
    return (
        b"\x0a\xa1\x67version\x02" + bytes(16) + struct.pack("<QQQ", 51, len(payload), 0) + payload
    )


class Files:
    """Random files: the roots and blocks of each, and the blocks that all of them lack."""

    def __init__(self, chance, files, blocks):
        self.named, self.there, self.unknown = set(), set(), 0
        self.files = [([], []) for _ in range(files)]
        known = []
        for _ in range(files * blocks):
            cid, block, links = self.block(chance, known)
            known.append(cid)
            copies = 0 if chance.random() < 0.02 else 2 if chance.random() < 0.05 else 1
            for _ in range(copies):
                roots, sections = chance.choice(self.files)
                sections.append((cid, block))
                self.there.add(cid)
                self.named.update(links)
                self.unknown += cid[1:3] == varint(DAG_JSON)
                if chance.random() < 0.01:
                    roots.append(cid)
        for roots, _ in self.files:
            roots.append(chance.choice(known))
            self.named.update(roots)
        # A root, and a link through nested identity CIDs, to blocks that are in no file.
        lost = cid_of(RAW, b"lost")
        inner = b"\1\x71\0" + varint(len(link(lost[:2] + b"\0\1a"))) + link(lost[:2] + b"\0\1a")
        short = b"\1\x55\x12\3abc"
        carried = b"\1\x71\0" + varint(len(link(short))) + link(short)
        outer = b"\1\x71\0" + varint(len(link(carried))) + link(carried)
        self.files[0][0].extend([inner, outer, lost])
        self.named.update([short, lost])
        self.missing = self.named - self.there

    @staticmethod
    def block(chance, known):
        links = [chance.choice(known) for _ in range(min(len(known), int(chance.expovariate(0.5))))]
        kind = chance.random()
        if kind < 0.6:
            block = cbor(chance, links)
            return cid_of(DAG_CBOR, block), block, links
        if kind < 0.8:
            block = node(chance, links)
            return (
                (cid_of(DAG_PB, block)[2:] if chance.random() < 0.5 else cid_of(DAG_PB, block)),
                block,
                links,
            )
        block = chance.randbytes(chance.randrange(100))
        return cid_of(DAG_JSON if kind > 0.99 else RAW, block), block, []


# ---- The processes of the example


def processes(session):
    """Returns the processes of a session that haven't ended."""
    found = []
    for name in filter(str.isdigit, os.listdir("/proc")):
        try:
            state = pathlib.Path(f"/proc/{name}/stat").read_text().rpartition(")")[2].split()
        except OSError:
            continue
        if state[0] not in "ZX" and int(state[3]) == session:
            found.append(int(name))
    return found


def listening(session):
    """
    Yields the addresses at which the processes of the session wait for connections, as /proc/net
    writes them.
    """
    sockets = set()
    for process in processes(session):
        try:
            sockets.update(os.readlink(it.path) for it in os.scandir(f"/proc/{process}/fd"))
        except OSError:
            pass
    for table in ("/proc/net/tcp", "/proc/net/tcp6"):
        for line in (
            pathlib.Path(table).read_text().splitlines()[1:] if os.path.exists(table) else []
        ):
            words = line.split()
            if words[3] == "0A" and f"socket:[{words[9]}]" in sockets:
                yield words[1].partition(":")[0]


def run(*arguments):
    """
    Returns the status, the output and the errors of the example, and the addresses at which its
    processes listened. All of them have to end by themselves.
    """
    words = [sys.executable, EXAMPLE, *arguments]
    end, addresses = time.monotonic() + SECONDS, set()
    with subprocess.Popen(
        words,
        stdin=subprocess.DEVNULL,
        stdout=subprocess.PIPE,
        stderr=subprocess.PIPE,
        text=True,
        start_new_session=True,
    ) as ran:
        try:
            while True:
                try:
                    written, said = ran.communicate(timeout=0.2)
                    break
                except subprocess.TimeoutExpired:
                    addresses.update(listening(ran.pid))
                    assert time.monotonic() < end, f"it had not ended after {SECONDS} seconds"
            # The process that tracks shared memory ends shortly after the others.
            while processes(ran.pid):
                assert (
                    time.monotonic() < end
                ), f"these processes had not ended after {SECONDS} seconds: {processes(ran.pid)}"
                time.sleep(0.05)
        finally:
            for process in processes(ran.pid):
                os.kill(process, signal.SIGKILL)
    return ran.returncode, written, said, addresses


def main():
    folder = pathlib.Path(sys.argv[1])
    files, blocks, seed = [int(it) for it in sys.argv[2:5]] + [6, 500, 1][len(sys.argv) - 2 :]
    folder.mkdir()
    chance = random.Random(seed)
    made, names = Files(chance, files, blocks), []
    for at, (roots, sections) in enumerate(made.files):
        names.append(folder / f"{at}.car")
        names[-1].write_bytes(car(roots, sections, 2 if at % 3 == 1 else 1))
    expected = sorted(reader.cid_text(cid, "b") for cid in made.missing)

    status, written, said, addresses = run("--workers", "2", "--report", *names)
    assert sorted(written.splitlines()) == expected, (written, said)
    assert len(expected) > 10 and status == 1, (expected, status)
    assert f"missing_blocks: {made.unknown} blocks are of codecs" in said or made.unknown == 0, said
    assert addresses == {"0100007F"}, addresses
    print(said, end="")

    try:
        program, beside = built("ipld", "ipld"), "and the program ipld"
    except NotBuilt:
        program, beside = None, "without the program ipld, which is not built"
    if program:
        merged = folder / "merged.car"
        merged.write_bytes(
            car(
                [root for roots, _ in made.files for root in roots],
                [it for _, sections in made.files for it in sections],
            )
        )
        ran = subprocess.run(
            [program, "car", "missing", "--by-cid", merged],
            capture_output=True,
            text=True,
            timeout=SECONDS,
        )
        assert sorted(ran.stdout.splitlines()) == expected, (ran.stdout, ran.stderr)
        assert ran.returncode == 1, ran

    # Unreadable files don't end the run, and the blocks before the error count.
    _, alone, _, _ = run("--workers", "2", names[0])
    cut, absent = folder / "cut.car", folder / "absent.car"
    cut.write_bytes(names[0].read_bytes()[:-1])
    status, written, said, _ = run("--workers", "2", cut, absent, names[0])
    assert status == 1 and sorted(written.splitlines()) == sorted(alone.splitlines()), (
        status,
        written,
    )
    for name in (cut, absent):
        assert (
            sum(it.startswith(f"missing_blocks: {name}: ") for it in said.splitlines()) == 1
        ), said
    print(f"missing blocks of {files} files by two processes, {beside}: ok")


if __name__ == "__main__":
    main()
