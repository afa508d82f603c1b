"""Writes files of UnixFS as CARs for the tests of the package for JavaScript.

usage: python file_cases.py FOLDER      at the top of the repository, or with it on PYTHONPATH

FOLDER/content has the bytes of the file. Each FOLDER/*.car has it as blocks, in their order, by an
independent writer. FOLDER/folder.car has an empty folder.
"""

import pathlib
import random
import sys

from tests.ipld.formats import car
from tests.ipld.unixfs import Profile, file_of, folder

CONTENT = random.Random(7).randbytes(1_000_003)
# A file of two levels, and files of more with raw blocks and with nodes as leaves.
PROFILES = {
    "two-levels": Profile(0, False, 262_144, 174),
    "raw-leaves": Profile(1, True, 9_000, 5),
    "nodes": Profile(0, False, 8_000, 6),
}


def blocks_of(node):
    """Returns the blocks of a node and below it by CID, in the order of the bytes."""
    found = {node.cid: node.block.data}
    for _, it in node.links:
        found.update(blocks_of(it))
    return found


def main():
    out = pathlib.Path(sys.argv[1])
    out.mkdir(parents=True)
    (out / "content").write_bytes(CONTENT)
    nodes = {name: file_of(CONTENT, profile) for name, profile in PROFILES.items()}
    for name, node in {**nodes, "folder": folder({})}.items():
        (out / f"{name}.car").write_bytes(car([node.cid], blocks_of(node).items()))


if __name__ == "__main__":
    main()
