"""Prints each link of the block in a file."""

import pathlib
import sys

block = pathlib.Path(sys.argv[1]).read_bytes()

# [begin: links]
import kombilad

for cid in kombilad.links(block):
    print(cid)
# [end: links]
