"""The times of the Python package beside pure Python and cbor2, in turns, the least of many runs.

usage: python speed.py FOLDER-OF-THE-DATA
"""

import pathlib
import sys
import time

import kombilad

sys.path.insert(0, str(pathlib.Path(__file__).resolve().parent.parent / "test"))
import reader  # noqa: E402

try:
    import cbor2
except ImportError:
    cbor2 = None


def least(works, rounds=60):
    """The microseconds of each piece of work."""
    times = []
    for work in works:
        begin = time.perf_counter()
        work()
        times.append(max(1, int(0.002 / (time.perf_counter() - begin))))
    found = [float("inf")] * len(works)
    for _ in range(rounds):
        for at, work in enumerate(works):
            begin = time.perf_counter()
            for _ in range(times[at]):
                work()
            found[at] = min(found[at], (time.perf_counter() - begin) / times[at] * 1e6)
    return found


def main():
    folder = pathlib.Path(sys.argv[1])
    print(
        "| links of | µs | pure Python, µs | ratio | cbor2.loads, µs | ratio |\n|---|---|---|---|---|---|"
    )
    for name in ("record", "file", "hamt"):
        block = (folder / f"{name}.cbor").read_bytes()
        assert [bytes(cid) for cid in kombilad.links(block)] == reader.read(block).links
        works = [lambda: kombilad.links(block), lambda: reader.read(block).links]
        if cbor2:
            works.append(lambda: cbor2.loads(block))
        ours, pure, *loads = least(works)
        row = f"| `{name}` | {ours:.1f} | {pure:.0f} | {ours / pure:.3f} |"
        print(row + (f" {loads[0]:.1f} | {ours / loads[0]:.2f} |" if loads else " not here | |"))


if __name__ == "__main__":
    main()
