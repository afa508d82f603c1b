#!/usr/bin/env python3
"""Prints the CIDs of the blocks that many CAR files together lack, by workers on one machine or on
several: the roots and links whose block is in none of the files. `ipld car missing --by-cid` does
the same on one machine, one file after the other.

usage: missing_blocks.py [--workers N | --scheduler ADDRESS] [--parts N] [--report] FILE..

Each CID is printed once, on a line of its own, in any order. A CID with the identity hash contains
its block: it is never missing, and the links of that block count.

If a file can't be read to its end, its name and the error are printed to standard error, and the
blocks before the error count. The status is 1 if a block is missing or a file can't be read, and
otherwise 0.

A worker reads a file one block at a time, and sorts the CIDs of blocks and links into parts, by a
hash of their bytes. Then one worker gets a part of all files, and removes its blocks from its
links. Each worker opens the files by the names that you give. The program needs the packages
`kombilad` and `distributed` (in Debian python3-distributed).
"""

import argparse
import hashlib
import os
import sys
import tempfile

import kombilad
from distributed import Client, LocalCluster, as_completed

IDENTITY = 0
# Any free port, on the loopback address.
HERE = "127.0.0.1:0"
# The maximum number of CIDs of a file that wait to be sorted into parts. So memory doesn't grow
# with the file.
CIDS_AT_ONCE = 1 << 20


# ---- The links of a block


def links_of_block(codec, block):
    """Returns the links of a block, or None for an unknown codec."""
    if codec == kombilad.DAG_CBOR:
        return kombilad.links(block)
    if codec == kombilad.DAG_PB:
        return [link["Hash"] for link in kombilad.decode_dag_pb(block)["Links"]]
    return [] if codec == kombilad.RAW else None


def add_links(into, links):
    """Adds the bytes of links, and of the links of blocks that such CIDs contain."""
    links = list(links)
    while links:
        cid = links.pop()
        if cid.hash_code == IDENTITY:
            links += links_of_block(cid.codec, cid.digest) or []
        else:
            into.add(bytes(cid))


# ---- The work of a worker


def packed(cids):
    """Returns CIDs as bytes, each after its length."""
    return b"".join(bytes([len(cid)]) + cid for cid in cids)


def unpacked(pieces):
    for piece in pieces:
        at = 0
        while at < len(piece):
            end = at + 1 + piece[at]
            yield piece[at + 1 : end]
            at = end


class Sorter:
    """
    Sorts CIDs of blocks and of links into parts. The key is secret, so that nobody can make a file
    whose CIDs are all in one part.
    """

    def __init__(self, parts, key):
        self.parts, self.key = [([], []) for _ in range(parts)], key

    def part_of(self, cid):
        digest = hashlib.blake2b(cid, digest_size=8, key=self.key).digest()
        return int.from_bytes(digest, "big") * len(self.parts) >> 64

    def add(self, blocks, links):
        """Sorts the CIDs, and empties both sets. Links to these blocks are left out."""
        links -= blocks
        for kind, cids in enumerate((blocks, links)):
            sorted_out = [[] for _ in self.parts]
            for cid in cids:
                sorted_out[self.part_of(cid)].append(cid)
            for part, found in zip(self.parts, sorted_out):
                if found:
                    part[kind].append(packed(found))
            cids.clear()


def read_file(path, sorter):
    """
    Sorts the CIDs of a file. Returns the number of blocks that were read, the number of these with
    an unknown codec, and the error that ended it, or None.
    """
    blocks, links, count, unknown, failure = set(), set(), 0, 0, None
    try:
        with open(path, "rb") as file:
            reader = kombilad.CarReader(file)
            add_links(links, reader.roots)
            for cid, block in reader:
                found = links_of_block(cid.codec, block)
                add_links(links, found or [])
                blocks.add(bytes(cid))
                count, unknown = count + 1, unknown + (found is None)
                if len(blocks) + len(links) >= CIDS_AT_ONCE:
                    sorter.add(blocks, links)
    except (OSError, ValueError) as error:
        failure = f"{path}: {error}"
    sorter.add(blocks, links)
    return count, unknown, failure


def read_files(paths, parts, key):
    """
    Returns the parts; the number of blocks that were read, the number of these with an unknown
    codec, and the number of bytes of the parts; and the errors of files.
    """
    sorter = Sorter(parts, key)
    counts, unknowns, failures = zip(*(read_file(path, sorter) for path in paths))
    size = sum(len(piece) for part in sorter.parts for kind in part for piece in kind)
    return {
        "parts": sorter.parts,
        "counts": (sum(counts), sum(unknowns), size),
        "failures": [failure for failure in failures if failure],
    }


def item_of(mapping, name):
    return mapping[name]


def part_of(read, part):
    return read["parts"][part]


def missing_in(pieces):
    """Returns the links of a part without its blocks."""
    links = {cid for _, links in pieces for cid in unpacked(links)}
    for blocks, _ in pieces:
        links.difference_update(unpacked(blocks))
    return packed(sorted(links))


# ---- The whole job


def missing_blocks(client, paths, tasks, parts):
    """
    Yields the counts and the errors of all files, and then the missing CIDs of each part, packed.
    """
    key = os.urandom(16)
    groups = [paths[at::tasks] for at in range(min(tasks, len(paths)))]
    read = [client.submit(read_files, group, parts, key, pure=False) for group in groups]
    counts = [client.submit(item_of, it, "counts") for it in read]
    failures = [client.submit(item_of, it, "failures") for it in read]
    found = [
        client.submit(missing_in, [client.submit(part_of, it, part) for it in read])
        for part in range(parts)
    ]
    del read
    yield [sum(column) for column in zip(*client.gather(counts))], sum(client.gather(failures), [])
    for future, missing in as_completed(found, with_results=True):
        future.release()
        yield missing


def taken(dask_worker):
    """Returns the number of bytes that a worker received, and its peak memory in KiB."""
    with open("/proc/self/status", encoding="ascii") as status:
        most = next(line for line in status if line.startswith("VmHWM:"))
    return sum(it["total"] for it in dask_worker.transfer_incoming_log), int(most.split()[1])


def report(client, counts, at_first):
    blocks, _, size = counts
    sys.stderr.write(
        f"{blocks} blocks; {size} bytes of CIDs in parts, {size / max(blocks, 1):.1f} a block\n"
    )
    for worker, (received, memory) in sorted(client.run(taken).items()):
        sys.stderr.write(
            f"{worker}: {received} bytes received, at most {memory} KiB of memory, {at_first[worker][1]} before\n"
        )


def print_missing(client, arguments):
    workers = max(1, len(client.scheduler_info()["workers"]))
    at_first = client.run(taken) if arguments.report else {}
    results = missing_blocks(client, arguments.files, 4 * workers, arguments.parts or 2 * workers)
    counts, failures = next(results)
    for failure in failures:
        sys.stderr.write(f"missing_blocks: {failure}\n")
    status = 1 if failures else 0
    for missing in results:
        for cid in unpacked([missing]):
            print(kombilad.Cid(cid))
            status = 1
    if counts[1]:
        sys.stderr.write(
            f"missing_blocks: {counts[1]} blocks are of codecs whose links are not known\n"
        )
    if arguments.report:
        report(client, counts, at_first)
    return status


def main():
    parser = argparse.ArgumentParser(description=__doc__.partition("\n\n")[0])
    parser.add_argument(
        "--workers", type=int, default=os.cpu_count(), help="how many processes on this machine"
    )
    parser.add_argument(
        "--scheduler", help="the address of a Dask scheduler, instead of local processes"
    )
    parser.add_argument(
        "--parts",
        type=int,
        help="the number of parts of the CIDs (default: twice the number of workers)",
    )
    parser.add_argument(
        "--report",
        action="store_true",
        help="print the bytes that were exchanged and the memory that was taken",
    )
    parser.add_argument("files", nargs="+", metavar="FILE")
    arguments = parser.parse_args()
    if arguments.scheduler:
        with Client(arguments.scheduler) as client:
            return print_missing(client, arguments)
    with tempfile.TemporaryDirectory() as folder:
        # Processes of one thread that listen on the loopback address. They write to the folder if
        # they need more memory.
        options = {
            "host": "127.0.0.1",
            "dashboard_address": HERE,
            "worker_dashboard_address": HERE,
            "local_directory": folder,
        }
        with LocalCluster(
            n_workers=arguments.workers, threads_per_worker=1, **options
        ) as cluster, Client(cluster) as client:
            return print_missing(client, arguments)


if __name__ == "__main__":
    sys.exit(main())
