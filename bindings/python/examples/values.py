"""
Prints the value of the block in a file, and writes the block of a value that contains its CID to
another file.
"""

import pathlib
import sys

block = pathlib.Path(sys.argv[1]).read_bytes()

# [begin: values]
import kombilad

value = kombilad.decode_dag_cbor(block)
post = {"text": "a block of a value", "value": value, "of": kombilad.Cid.of_block(block)}
encoded = kombilad.encode_dag_cbor(post)
# [end: values]

assert kombilad.decode_dag_cbor(encoded) == post
print(value)
pathlib.Path(sys.argv[2]).write_bytes(encoded)
