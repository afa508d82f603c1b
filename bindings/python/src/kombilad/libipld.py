"""The functions of the package `libipld`, with its names and types: `import kombilad.libipld as
libipld`.

CIDs are bytes here, and bytes that are a CID are encoded as a link. Invalid input raises
`ValueError`. The functions of `kombilad` have more options, and distinguish CIDs from bytes.

>>> encode_dag_cbor({"link": bytes.fromhex("01550000"), "n": 1}).hex()
'a2616e01646c696e6bd82a450001550000'
>>> decode_dag_cbor(bytes.fromhex("a1646c696e6bd82a450001550000"))
{'link': b'\\x01U\\x00\\x00'}
"""

from typing import Any, Dict, List, Tuple, Union

from . import _car, _values
from ._cid import Cid
from ._status import BytesLike
from ._multibase import MultibaseError, decode_multibase, encode_multibase

__all__ = [
    "MultibaseError",
    "decode_car",
    "decode_cid",
    "decode_dag_cbor",
    "decode_dag_cbor_multi",
    "decode_multibase",
    "encode_cid",
    "encode_dag_cbor",
    "encode_multibase",
]

for _public in (MultibaseError, decode_multibase, encode_multibase):
    _public.__module__ = __name__


def decode_dag_cbor(data: BytesLike) -> Any:
    """Returns the value of a block, like `kombilad.decode_dag_cbor` with CIDs as bytes.

    >>> decode_dag_cbor(b"\\xa2aa\\x0cabfhello!")
    {'a': 12, 'b': 'hello!'}
    """
    return _values.decode_dag_cbor(data, cids=bytes)


def decode_dag_cbor_multi(data: BytesLike) -> List[Any]:
    """Returns the values of blocks that follow one another, like `kombilad.decode_dag_cbor_multi`
    with CIDs as bytes.

    >>> decode_dag_cbor_multi(b"\\xa2aa\\x0cabfhello!\\x82\\x00\\x01")
    [{'a': 12, 'b': 'hello!'}, [0, 1]]
    """
    return _values.decode_dag_cbor_multi(data, cids=bytes)


def encode_dag_cbor(data: Any) -> bytes:
    """Returns the canonical block of a value, like `kombilad.encode_dag_cbor` with CIDs as bytes.

    >>> encode_dag_cbor({"a": 12, "b": "hello!"})
    b'\\xa2aa\\x0cabfhello!'
    """
    return _values.encode_dag_cbor(data, cids=bytes)


def decode_car(data: BytesLike) -> Tuple[Dict[str, Any], Dict[bytes, Any]]:
    """Returns the header of a CAR, and the values of its blocks by the bytes of their CIDs, like
    `kombilad.decode_car` with CIDs as bytes.

    >>> car = bytes.fromhex("19a265726f6f747381d82a4500015500006776657273696f6e01 0401550000 050171000001")
    >>> decode_car(car)
    ({'version': 1, 'roots': [b'\\x01U\\x00\\x00']}, {b'\\x01U\\x00\\x00': b'', b'\\x01q\\x00\\x00': 1})
    """
    return _car.decode_car(data, cids=bytes)


def decode_cid(cid: Union[str, BytesLike]) -> Dict[str, Any]:
    """Returns the parts of a CID, which is a text or bytes.

    >>> decode_cid("bafkqaaa")
    {'version': 1, 'codec': 85, 'hash': {'code': 0, 'size': 0, 'digest': b''}}
    >>> parts = decode_cid("bafyreig7jbijxpn4lfhvnvyuwf5u5jyhd7begxwyiqe7ingwxycjdqjjoa")
    >>> parts["version"], parts["codec"], parts["hash"]["code"], parts["hash"]["size"]
    (1, 113, 18, 32)
    >>> parts["hash"]["digest"]
    b'\\xdfHP\\x9b\\xbd\\xbcYOV\\xd7\\x14\\xb1{N\\xa7\\x07\\x1f\\xc2C^\\xd8D\\t\\xf44\\xd6\\xbe\\x04\\x91\\xc1)p'
    """
    read = Cid(cid)
    digest = read.digest
    return {
        "version": read.version,
        "codec": read.codec,
        "hash": {"code": read.hash_code, "size": len(digest), "digest": digest},
    }


def encode_cid(cid: Union[str, BytesLike]) -> str:
    """Returns the text of a CID, which is bytes or a text in any base.

    >>> encode_cid(bytes.fromhex("01550000"))
    'bafkqaaa'
    >>> encode_cid("bafyreig7jbijxpn4lfhvnvyuwf5u5jyhd7begxwyiqe7ingwxycjdqjjoa")
    'bafyreig7jbijxpn4lfhvnvyuwf5u5jyhd7begxwyiqe7ingwxycjdqjjoa'
    """
    return str(Cid(cid))
