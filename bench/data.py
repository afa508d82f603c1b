"""The data that bench/run measures with. It is the same wherever and whenever it is made."""

import base64
import hashlib

RAW, DAG_PB, DAG_CBOR, SHA2_256 = 0x55, 0x70, 0x71, 0x12

WORDS = "a block of data has a name that is made from its bytes so whoever holds the name can check what was sent über Straßen 東京".split()


class Source:
    """Bytes and numbers that depend on a label alone."""

    def __init__(self, label):
        self.label, self.count = label, 0

    def bytes(self, length):
        self.count += 1
        return hashlib.shake_256(f"{self.label} {self.count}".encode()).digest(length)

    def below(self, limit):
        return int.from_bytes(self.bytes(16), "big") % limit

    def words(self, count):
        return " ".join(WORDS[self.below(len(WORDS))] for _ in range(count))

    def link(self, codec=DAG_CBOR):
        return Link(bytes([1, codec, SHA2_256, 32]) + self.bytes(32))


class Link:
    def __init__(self, cid):
        self.cid = cid


def head(major, argument):
    """The head of an item, with the argument in its shortest form."""
    if argument < 24:
        return bytes([major << 5 | argument])
    power = next(it for it in range(4) if argument < 1 << (8 << it))
    return bytes([major << 5 | 24 + power]) + argument.to_bytes(1 << power, "big")


def block_of(value):
    """The value as DAG-CBOR."""
    if isinstance(value, bool) or value is None:
        return {False: b"\xf4", True: b"\xf5", None: b"\xf6"}[value]
    if isinstance(value, int):
        return head(0, value) if value >= 0 else head(1, -1 - value)
    if isinstance(value, bytes):
        return head(2, len(value)) + value
    if isinstance(value, str):
        return head(3, len(value.encode())) + value.encode()
    if isinstance(value, list):
        return head(4, len(value)) + b"".join(map(block_of, value))
    if isinstance(value, Link):
        return head(6, 42) + block_of(b"\0" + value.cid)
    keys = sorted(value, key=lambda key: (len(key.encode()), key.encode()))
    return head(5, len(value)) + b"".join(block_of(key) + block_of(value[key]) for key in keys)


def record():
    """A post of a social network: strings, a few links, nested maps."""
    source = Source("record")
    reply = {
        name: {"cid": source.link(), "uri": f"at://did:plc:{source.bytes(12).hex()}/post/1"}
        for name in ("parent", "root")
    }
    image = {
        "alt": source.words(6),
        "ref": source.link(RAW),
        "size": 345_678,
        "width": 1200,
        "height": 800,
    }
    return {
        "$type": "app.example.feed.post",
        "text": source.words(20),
        "langs": ["en", "de", "ja"],
        "reply": reply,
        "images": [image],
        "createdAt": "2026-11-25T08:00:00.000Z",
        "scores": [0, 23, 24, 255, 256, 65_536, -1, -500],
        "previous": None,
        "edited": False,
        "public": True,
        "signature": source.bytes(64),
    }


def file():
    """A file of UnixFS: one link for each chunk of it."""
    source = Source("file")
    return {
        "Data": source.bytes(14),
        "Links": [{"Hash": source.link(RAW), "Name": "", "Tsize": 262_158} for _ in range(174)],
    }


def hamt(depth=2):
    """A hash map of 256 entries as a tree of nodes: 8 children a node, 4 entries a bucket."""
    source = Source(f"hamt {depth}")

    def node(depth):
        if depth == 0:
            return [[{"k": source.bytes(8), "v": source.link()} for _ in range(4)]]
        return {"map": source.bytes(4), "data": [node(depth - 1) for _ in range(8)]}

    return node(depth)


def integers():
    """1,000 integers of either sign and each length."""
    source = Source("integers")
    limits = [24, 1 << 8, 1 << 16, 1 << 32, 1 << 53]
    return [(-1) ** it * source.below(limits[it // 2 % len(limits)]) for it in range(1000)]


def keys():
    """A map of 1,000 keys."""
    source = Source("keys")
    return {f"entry/{it:04}": source.below(1 << 20) for it in range(1000)}


def strings():
    """200 KB of strings, of which some are not ASCII."""
    source = Source("strings")
    return [
        {
            "title": source.words(8),
            "body": source.words(150),
            "tags": [source.words(1) for _ in range(3)],
        }
        for _ in range(250)
    ]


def person():
    """The struct of the typed rows."""
    return {
        "name": "Hello World!",
        "age": 52,
        "hobbies": ["geography", "programming"],
        "is_cool": True,
        "link": Source("person").link(RAW),
    }


def text_of(link):
    """The text of a link's CID."""
    return "b" + base64.b32encode(link.cid).decode().rstrip("=").lower()


def post():
    """
    A post of atproto, by its lexicon app.bsky.feed.post: a reply with links in its text, and two
    images.
    """
    source = Source("post")

    def reference():
        return {
            "cid": text_of(source.link()),
            "uri": f"at://did:plc:{source.bytes(12).hex()}/app.bsky.feed.post/{source.bytes(6).hex()}",
        }

    def facet(start):
        feature = {
            "$type": "app.bsky.richtext.facet#link",
            "uri": f"https://example.org/{source.words(1)}",
        }
        return {"index": {"byteStart": start, "byteEnd": start + 20}, "features": [feature]}

    def image():
        blob = {"$type": "blob", "ref": source.link(RAW), "mimeType": "image/jpeg", "size": 345_678}
        return {
            "alt": source.words(8),
            "image": blob,
            "aspectRatio": {"width": 1200, "height": 800},
        }

    return {
        "$type": "app.bsky.feed.post",
        "text": source.words(30),
        "langs": ["en"],
        "reply": {"parent": reference(), "root": reference()},
        "facets": [facet(10), facet(50)],
        "embed": {"$type": "app.bsky.embed.images", "images": [image(), image()]},
        "createdAt": "2026-11-25T08:00:00.000Z",
    }


def message():
    """
    A message of Filecoin, the list of its ten fields: one to an actor, of an account, which sends
    some FIL and has parameters.
    """
    source = Source("message")

    def address(protocol):
        return bytes([protocol]) + source.bytes(20)

    def amount(number):
        # Filecoin's big integers: a byte for the sign, then the number, from its first byte on.
        return b"\0" + number.to_bytes((number.bit_length() + 7) // 8, "big")

    value, fee_cap, premium = amount(250 * 10**18), amount(2_500_000_000), amount(125_000)
    return [
        0,
        address(2),
        address(1),
        172_344,
        value,
        12_345_678,
        fee_cap,
        premium,
        2,
        source.bytes(100),
    ]


def varint(number):
    low = bytes([number & 0x7F])
    return low if number < 128 else bytes([low[0] | 128]) + varint(number >> 7)


def node():
    """
    A file of UnixFS as a node of DAG-PB: one link for each of its chunks, with its size, and the
    data of UnixFS.
    """
    source = Source("node")

    def field(number, content):
        return varint(number << 3 | 2) + varint(len(content)) + content

    links = [
        field(1, source.link(RAW).cid) + field(2, b"") + varint(3 << 3) + varint(262_158)
        for _ in range(174)
    ]
    sizes = b"".join(varint(4 << 3) + varint(262_144) for _ in links)
    data = varint(1 << 3) + varint(2) + varint(3 << 3) + varint(174 * 262_144) + sizes
    return b"".join(field(2, link) for link in links) + field(1, data)


def car():
    """
    A CAR of 500 blocks of DAG-CBOR with four links each: three to blocks before it, where there are
    some, and one to a block that isn't there.
    """
    source = Source("car")

    def section(content):
        return varint(len(content)) + content

    cids, sections = [], []
    for number in range(500):
        earlier = [Link(cids[source.below(len(cids))]) for _ in range(3 if cids else 0)]
        block = block_of({"links": [*earlier, source.link()], "number": number})
        cids.append(bytes([1, DAG_CBOR, SHA2_256, 32]) + hashlib.sha256(block).digest())
        sections.append(section(cids[-1] + block))
    return section(block_of({"roots": [Link(cids[-1])], "version": 1})) + b"".join(sections)


def write(folder):
    """Writes the files of the benchmark into the folder."""
    for make in (record, file, hamt, integers, keys, strings, person, post, message):
        (folder / f"{make.__name__}.cbor").write_bytes(block_of(make()))
    (folder / "node.pb").write_bytes(node())
    (folder / "blocks.car").write_bytes(car())
    source = Source("cids")
    cids = [source.link([RAW, DAG_PB, DAG_CBOR][it % 3]).cid for it in range(1000)]
    (folder / "cids.bin").write_bytes(b"".join(cids))
    (folder / "cids.txt").write_bytes(
        b"".join(b"b" + base64.b32encode(it).rstrip(b"=").lower() for it in cids)
    )
