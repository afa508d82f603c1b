"""The calls of libkombilad in the extension module of the package, by ctypes. Tests use them for
results that the package doesn't return."""

import ctypes

from kombilad import _native

library = ctypes.CDLL(_native.__file__)


class CidBytes(ctypes.Structure):
    """The bytes of a CID: `len` of them, and zeros after them."""

    _fields_ = [("len", ctypes.c_uint8), ("bytes", ctypes.c_uint8 * 87)]
