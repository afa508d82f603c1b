"""Tests of the gateway in `tests/gateway.py`, by urllib. They don't run the program."""

import http.client
import unittest
import urllib.error
import urllib.request

from ..gateway import CAR_TYPE, FOREIGN, RAW_TYPE, Gateway, Lie
from . import damaged
from .formats import bases_of, car, cid_from, raw
from .random_unixfs import Source
from .unixfs import DEFAULT, RAW_LEAVES, blocks_of, car_of, file_of, folder, shard, symlink
from .unixfs_reader import Fault, Reader

SECONDS = 20
# How much of an endless body is read, in bytes.
SOME = 100_000

CONTENT = bytes(range(100))
BIG = file_of(CONTENT, RAW_LEAVES._replace(chunk=10, width=3))
SAME = file_of(bytes(40), DEFAULT._replace(chunk=10))
NAMES = [b"%d" % number for number in range(300)]
SHARDED = shard({name: file_of(name) for name in NAMES}, 1)
INSIDE = folder({b"big": BIG, b"same": SAME, "é ü".encode(): file_of(b"odd name")}, 1)
ROOT = folder({b"in": INSIDE, b"link": symlink(b"in/big"), b"many": SHARDED}, 1)
BLOCKS = dict(blocks_of(ROOT))
# The CIDs of the blocks at the path in/big.
CIDS = [ROOT.cid, INSIDE.cid, *(it.cid for it in blocks_of(BIG))]


def get(url, accept=None):
    """Returns the body of an answer, and its type."""
    request = urllib.request.Request(url, headers={"Accept": accept} if accept else {})
    with urllib.request.urlopen(request, timeout=SECONDS) as answer:
        return answer.read(), answer.headers["Content-Type"]


class GatewayTest(unittest.TestCase):
    def status(self, url, accept=None):
        with self.assertRaises(urllib.error.HTTPError) as raised:
            get(url, accept)
        raised.exception.close()
        return raised.exception.code

    def cids(self, body, root):
        """Returns the CIDs of a CAR, whose root and blocks have to be right."""
        self.assertTrue(body.startswith(car([root], [])))
        blocks, error = damaged.read(body)
        self.assertIsNone(error)
        for _, cid, data in blocks:
            self.assertEqual(data, BLOCKS[cid])
        return [cid for _, cid, _ in blocks]


class HonestTest(GatewayTest):
    @classmethod
    def setUpClass(cls):
        cls.gateway = Gateway(BLOCKS)
        cls.gateway.__enter__()
        cls.addClassCleanup(cls.gateway.__exit__)

    def car_cids(self, cid, path="", end=None, **options):
        """Returns the CIDs of the CAR of a path. `end` is the CID at its end."""
        url = self.gateway.url_of(cid, path, format="car", **options)
        body, kind = get(url)
        self.assertEqual(kind.partition(";")[0], CAR_TYPE)
        return self.cids(body, end or cid)

    def test_a_whole_car(self):
        body, kind = get(self.gateway.url_of(ROOT.cid, format="car"))
        self.assertEqual(body, car_of(ROOT))
        self.assertEqual(kind, f"{CAR_TYPE}; version=1; order=dfs; dups=n")
        body, kind = get(self.gateway.url_of(ROOT.cid, format="car", dups="y"))
        self.assertEqual(body, car_of(ROOT, repeats=True))
        self.assertEqual(kind, f"{CAR_TYPE}; version=1; order=dfs; dups=y")

    def test_paths(self):
        for scope in "all", "entity":
            found = self.car_cids(ROOT.cid, "/in/big", BIG.cid, dag_scope=scope)
            self.assertEqual(found, CIDS)
        found = self.car_cids(ROOT.cid, "/in/big", BIG.cid, dag_scope="block")
        self.assertEqual(found, CIDS[:3])
        (odd,) = [it for name, it in INSIDE.links if name == "é ü".encode()]
        found = self.car_cids(ROOT.cid, "/in/é ü", odd.cid)
        self.assertEqual(found, [*CIDS[:2], odd.cid])

    def test_scopes_of_folders(self):
        self.assertEqual(self.car_cids(ROOT.cid, dag_scope="entity"), [ROOT.cid])
        self.assertEqual(self.car_cids(ROOT.cid, dag_scope="block"), [ROOT.cid])
        found = self.car_cids(SHARDED.cid, dag_scope="entity")
        self.assertEqual(found[0], SHARDED.cid)
        reader = Reader({cid: BLOCKS[cid] for cid in found})
        self.assertEqual(sorted(name for name, _ in reader.entries(SHARDED.cid)), sorted(NAMES))
        # Each of them is needed.
        for cid in found:
            less = Reader({it: BLOCKS[it] for it in found if it != cid})
            self.assertRaises(Fault, less.entries, SHARDED.cid)

    def test_a_path_through_shards(self):
        for name in NAMES[::50]:
            target = file_of(name).cid
            found = self.car_cids(ROOT.cid, f"/many/{name.decode()}", target)
            reader = Reader({cid: BLOCKS[cid] for cid in found})
            self.assertEqual(reader.file(reader.at(ROOT.cid, [b"many", name])), name)

    def test_ranges(self):
        for first, last, begin, end in [
            ("0", "*", 0, 100),
            ("0", "0", 0, 1),
            ("10", "19", 10, 20),
            ("19", "20", 19, 21),
            ("95", "1000", 95, 100),
            ("-5", "*", 95, 100),
            ("-1000", "4", 0, 5),
            ("50", "-40", 50, 61),
            ("200", "300", 0, 0),
            ("60", "50", 0, 0),
        ]:
            with self.subTest(first=first, last=last):
                found = self.car_cids(BIG.cid, entity_bytes=f"{first}:{last}")
                leaves = [cid for cid in found if cid[1] == 0x55]
                expected = range(begin // 10 * 10, end, 10)
                self.assertEqual(leaves, [raw(CONTENT[at : at + 10]).cid for at in expected])
                self.assertEqual(found[0], BIG.cid)

    def test_raw_blocks(self):
        for cid, data in blocks_of(BIG):
            self.assertEqual(get(self.gateway.url_of(cid, format="raw")), (data, RAW_TYPE))
        body, _ = get(self.gateway.url_of(ROOT.cid, "/in/big", format="raw"))
        self.assertEqual(body, BIG.block.data)
        # The empty block is in its CID. Clients ask for it to find out whether there is a gateway.
        self.assertEqual(get(self.gateway.url_of("bafkqaaa", format="raw"))[0], b"")

    def test_accept(self):
        url = self.gateway.url_of(SAME.cid)
        self.assertEqual(get(url, RAW_TYPE), (SAME.block.data, RAW_TYPE))
        self.assertEqual(get(url, f"text/html, {CAR_TYPE}; version=1")[0], car_of(SAME))
        self.assertEqual(get(url, f"{CAR_TYPE};order=dfs;dups=y")[0], car_of(SAME, repeats=True))
        self.assertEqual(get(url + "?format=raw", CAR_TYPE)[0], SAME.block.data)
        repeats = get(url + "?format=car", f"{CAR_TYPE}; dups=y")[0]
        self.assertEqual(repeats, car_of(SAME, repeats=True))

    def test_errors(self):
        url_of = self.gateway.url_of
        for status, url in [
            (400, url_of("nothing", format="car")),
            (400, url_of(str(ROOT.cid)[:-1], format="car")),
            (400, url_of(ROOT.cid, format="car", dag_scope="some")),
            (400, url_of(ROOT.cid, format="car", dups="maybe")),
            (400, url_of(ROOT.cid, format="car", entity_bytes="1")),
            (400, url_of(ROOT.cid, format="car", entity_bytes="*:1")),
            (404, url_of(FOREIGN.cid, format="car")),
            (404, url_of(FOREIGN.cid, format="raw")),
            (404, url_of(ROOT.cid, "/no", format="car")),
            (404, url_of(ROOT.cid, "/link/x", format="car")),
            (404, f"{self.gateway.url}/ipns/{ROOT.cid}?format=car"),
            (406, url_of(ROOT.cid)),
            (406, url_of(ROOT.cid, format="tar")),
        ]:
            with self.subTest(url=url):
                self.assertEqual(self.status(url), status)

    def test_head(self):
        request = urllib.request.Request(self.gateway.url_of(SAME.cid, format="car"), method="HEAD")
        with urllib.request.urlopen(request, timeout=SECONDS) as answer:
            self.assertEqual(answer.headers["Content-Length"], str(len(car_of(SAME))))
            self.assertEqual(answer.read(), b"")

    def test_texts_of_cids(self):
        source = Source(1)
        for _ in range(50):
            cid = source.file().node.cid
            self.assertEqual(cid_from(str(cid)), cid)
        for name, text in bases_of(BIG.cid).items():
            if name in ("base16", "base32", "base36", "base58btc"):
                self.assertEqual(cid_from(text), BIG.cid)
        self.assertRaises(ValueError, cid_from, "Bafkqaaa")


class LyingTest(GatewayTest):
    def fetched(self, lie, cid=BIG.cid, **options):
        """Returns the body that a gateway gives if it lies."""
        with Gateway(BLOCKS, lie) as gateway:
            return get(gateway.url_of(cid, **{"format": "car", **options}))[0]

    def changed_cids(self, body):
        """Returns the CIDs of the blocks of a CAR that are not theirs."""
        blocks, error = damaged.read(body)
        self.assertIsNone(error)
        return [cid for _, cid, data in blocks if BLOCKS[cid] != data]

    def test_changed_blocks(self):
        cids = [it.cid for it in blocks_of(BIG)]
        self.assertEqual(self.changed_cids(self.fetched(Lie.OTHER_BLOCK)), cids[-1:])
        self.assertEqual(len(self.changed_cids(self.fetched(Lie.CHANGED_BYTE))), 1)
        for lie in Lie.OTHER_BLOCK, Lie.CHANGED_BYTE, Lie.CUT_IN_BLOCK:
            for cid in cids:
                self.assertNotEqual(self.fetched(lie, cid, format="raw"), BLOCKS[cid])

    def test_cut_bodies(self):
        whole = car_of(BIG)
        *blocks, last = blocks_of(BIG)
        between = self.fetched(Lie.CUT_BETWEEN_BLOCKS)
        self.assertEqual(between, car([BIG.cid], blocks))
        within = self.fetched(Lie.CUT_IN_BLOCK)
        self.assertTrue(whole.startswith(within))
        self.assertLess(len(between), len(within))
        self.assertLess(len(within), len(whole))
        self.assertEqual(self.fetched(Lie.EMPTY_BODY), b"")
        self.assertEqual(self.fetched(Lie.EMPTY_BODY, format="raw"), b"")

    def test_other_orders(self):
        blocks = blocks_of(BIG)
        self.assertEqual(self.fetched(Lie.OTHER_ORDER), car([BIG.cid], blocks[::-1]))
        twice = [it for each in blocks for it in (each, each)]
        self.assertEqual(self.fetched(Lie.REPEATED_BLOCKS), car([BIG.cid], twice))
        self.assertEqual(self.fetched(Lie.WRONG_ROOT), car([FOREIGN.cid], blocks))

    def test_a_body_without_an_end(self):
        for options in {"format": "car"}, {"format": "raw"}:
            with Gateway(BLOCKS, Lie.ENDLESS) as gateway:
                url = gateway.url_of(BIG.cid, **options)
                with urllib.request.urlopen(url, timeout=SECONDS) as answer:
                    body = answer.read(SOME)
            self.assertEqual(len(body), SOME)
            if options["format"] == "car":
                blocks, _ = damaged.read(body)
                self.assertGreater(len(blocks), SOME // 100)
                self.assertTrue(all(raw(data).cid == cid for _, cid, data in blocks))
                self.assertFalse(any(cid in BLOCKS for _, cid, _ in blocks))

    def test_a_redirect(self):
        with Gateway(BLOCKS, Lie.REDIRECT) as gateway:
            self.assertEqual(self.status(gateway.url_of(BIG.cid, format="car")), 301)
            self.assertGreater(len(gateway.requests), 1)
            connection = http.client.HTTPConnection("127.0.0.1", gateway.server.server_address[1])
            target = f"/ipfs/{BIG.cid}?format=raw"
            connection.request("GET", target)
            answer = connection.getresponse()
            self.assertEqual((answer.status, answer.headers["Location"]), (301, target))
            connection.close()
