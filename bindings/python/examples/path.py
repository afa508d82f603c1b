"""Prints the value at a path that leads from one block to another."""

# [begin: find]
import kombilad


def find(store, cid, path):
    """Returns the value at a path that begins in the block of a CID."""
    value, rest = kombilad.get(store[cid], path)
    while rest:
        value, rest = kombilad.get(store[value], rest)
    return value


# [end: find]

# [begin: store]
photo = kombilad.encode_dag_cbor({"name": "photo", "size": 42})
album = kombilad.encode_dag_cbor({"title": "Sea", "photos": [kombilad.Cid.of_block(photo)]})
store = {kombilad.Cid.of_block(it): it for it in (photo, album)}

print(find(store, kombilad.Cid.of_block(album), "photos/0/size"))
# [end: store]
