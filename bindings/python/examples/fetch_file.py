"""Writes a file of IPFS to standard output, from a gateway that nobody has to trust.

usage: fetch_file.py GATEWAY CID      such as https://trustless-gateway.link
"""

import sys
import urllib.error
import urllib.request

import kombilad

# The maximum number of bytes of a block.
LONGEST = 4 << 20


def blocks_of(gateway):
    """Returns the function that gets the block of a CID from a gateway, or None if it has none."""

    def get(cid):
        url = f"{gateway}/ipfs/{cid}?format=raw"
        try:
            with urllib.request.urlopen(url, timeout=30) as answer:
                # One more byte, so that a block that is too long is a wrong one.
                return answer.read(LONGEST + 1)
        except urllib.error.HTTPError as error:
            if error.code in (404, 410):
                return None
            raise

    return get


def main():
    gateway, text = sys.argv[1:]
    try:
        for piece in kombilad.read_file(blocks_of(gateway.rstrip("/")), kombilad.Cid(text)):
            sys.stdout.buffer.write(piece)
    except (OSError, kombilad.KombiladError, kombilad.MissingBlockError) as error:
        sys.stdout.buffer.flush()
        sys.exit(f"fetch_file: {error}")


if __name__ == "__main__":
    main()
