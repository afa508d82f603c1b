"""Prints the blocks that a root leads to, indented by depth."""

# [begin: walk]
import kombilad


def walk(store, roots):
    """
    Yields the depth, the CID and the block, or None, of each CID that the roots lead to, once.
    """
    seen, todo = set(), [(0, cid) for cid in reversed(roots)]
    while todo:
        depth, cid = todo.pop()
        if cid in seen:
            continue
        seen.add(cid)
        block = store.get(cid)
        yield depth, cid, block
        if block is not None and cid.codec == kombilad.DAG_CBOR:
            todo += [(depth + 1, link) for link in reversed(kombilad.links(block))]


# [end: walk]

# [begin: store]
photo = kombilad.encode_dag_cbor({"name": "photo", "size": 42})
album = kombilad.encode_dag_cbor({"title": "Sea", "photos": [kombilad.Cid.of_block(photo)]})
links = [kombilad.Cid.of_block(it) for it in (album, photo, b"a lost block")]
root = kombilad.encode_dag_cbor(links)
store = {kombilad.Cid.of_block(it): it for it in (photo, album, root)}

for depth, cid, block in walk(store, [kombilad.Cid.of_block(root)]):
    print("  " * depth + str(cid), "missing" if block is None else f"{len(block)} bytes")
# [end: store]
