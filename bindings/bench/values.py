"""The times of making the values of blocks, and of making blocks of values, beside cbor2's
extension in C, in turns, the least of many runs.

usage: python values.py FOLDER-OF-THE-DATA
"""

import pathlib
import sys

import cbor2
import kombilad
from speed import least

NAMES = ("record", "file", "hamt", "integers", "keys", "strings")


def plain(value):
    """The value with the links that cbor2 reads."""
    if isinstance(value, kombilad.Cid):
        return cbor2.CBORTag(42, b"\0" + bytes(value))
    if isinstance(value, list):
        return [plain(item) for item in value]
    if isinstance(value, dict):
        return {key: plain(item) for key, item in value.items()}
    return value


def main():
    folder = pathlib.Path(sys.argv[1])
    print(
        "| block | decode, µs | `cbor2.loads`, µs | ratio | encode, µs | `cbor2.dumps`, µs | ratio |\n|---|---|---|---|---|---|---|"
    )
    for name in NAMES:
        block = (folder / f"{name}.cbor").read_bytes()
        ours, theirs = kombilad.decode_dag_cbor(block), cbor2.loads(block)
        assert plain(ours) == theirs and kombilad.encode_dag_cbor(ours) == block
        decoded, loaded, encoded, dumped = least(
            [
                lambda: kombilad.decode_dag_cbor(block),
                lambda: cbor2.loads(block),
                lambda: kombilad.encode_dag_cbor(ours),
                lambda: cbor2.dumps(theirs),
            ]
        )
        print(
            f"| `{name}` | {decoded:.1f} | {loaded:.1f} | {decoded / loaded:.2f} | {encoded:.1f} | {dumped:.1f} | {encoded / dumped:.2f} |"
        )


if __name__ == "__main__":
    main()
