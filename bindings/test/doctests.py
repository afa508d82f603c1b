"""Tests the examples in the docstrings of the installed package."""

import doctest
import sys

import kombilad
from kombilad import _block, _car, _cid, _errors, _multibase, _values, libipld

done = [
    doctest.testmod(module)
    for module in (kombilad, _block, _car, _cid, _errors, _multibase, _values, libipld)
]
tried, failed = sum(it.attempted for it in done), sum(it.failed for it in done)
print(f"docstrings: {tried} examples: {'ok' if not failed else f'{failed} failed'}")
sys.exit(1 if failed or tried < 60 else 0)
