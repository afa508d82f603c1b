"""Makes random files and folders, with what a reader has to find in them."""

import collections
import random

from .unixfs import Profile, file_of, folder, shard, symlink


class File(collections.namedtuple("File", "node content")):
    """A file, and its bytes."""

    __slots__ = ()


class Symlink(collections.namedtuple("Symlink", "node target")):
    """A symbolic link, and its target."""

    __slots__ = ()


class Folder(collections.namedtuple("Folder", "node entries")):
    """A folder, and its entries by name."""

    __slots__ = ()


class Source:
    """Makes random files and folders. Two with the same seed make the same ones."""

    WIDTHS = (2, 3, 174)
    CHUNKS = (1, 2, 7, 64)
    LETTERS = ["a", "B", "7", ".", " ", "-", "\\", '"', "é", "ß", "\u0301", "\U0001f600"]
    # How many chunks a file has: up to two levels above the leaves by each width.
    COUNTS = (0, 1, 2, 3, 4, 5, 8, 9, 10, 27, 28)

    def __init__(self, seed):
        self.random = random.Random(seed)

    def profile(self):
        choose = self.random
        return Profile(
            choose.randrange(2),
            choose.random() < 0.5,
            choose.choice(self.CHUNKS),
            choose.choice(self.WIDTHS),
        )

    def more(self):
        """Returns a mode, a time, both or, most often, neither."""
        choose, more = self.random, {}
        if choose.random() < 0.15:
            more["mode"] = choose.choice([0, 0o644, 0o755, 0o7777, 2**32 - 1])
        if choose.random() < 0.15:
            more["mtime"] = (choose.choice([0, -1, 1, 1_700_000_000, -(2**63), 2**63 - 1]),)
        elif choose.random() < 0.15:
            more["mtime"] = (choose.randrange(2**33), choose.randrange(1, 10**9))
        return more

    def bytes(self, size):
        """Returns bytes, which sometimes repeat so that chunks are equal."""
        if self.random.random() < 0.2:
            return bytes([self.random.randrange(256)]) * size
        return self.random.randbytes(size)

    def file(self, profile=None):
        """Returns a file whose size is at a chunk's boundary or next to it."""
        profile = profile or self.profile()
        size = profile.chunk * self.random.choice(self.COUNTS) + self.random.choice([-1, 0, 1])
        content = self.bytes(max(0, size))
        return File(file_of(content, profile, **self.more()), content)

    def symlink(self):
        target = b"../" * self.random.randrange(3) + self.name()
        return Symlink(symlink(target, self.random.randrange(2), **self.more()), target)

    def name(self):
        """Returns the name of an entry, which is UTF-8 without control characters."""
        while True:
            letters = self.random.choices(self.LETTERS, k=self.random.randrange(1, 9))
            name = "".join(letters)
            if name not in (".", ".."):
                return name.encode()

    def folder(self, depth=2, count=None, is_sharded=None):
        """Returns a folder of folders, files and symbolic links, plain or sharded."""
        choose = self.random
        if count is None:
            count = choose.choice([0, 1, 2, 3, 5, 8])
        entries = {}
        while len(entries) < count:
            name = self.name() + b"-%d" % choose.randrange(1000)
            kinds = [self.file, self.file, self.symlink]
            if depth:
                kinds.append(lambda: self.folder(depth - 1))
            entries[name] = choose.choice(kinds)()
        if is_sharded is None:
            is_sharded = count and choose.random() < 0.4
        nodes = {name: it.node for name, it in entries.items()}
        version = choose.randrange(2)
        write = shard if is_sharded else folder
        return Folder(write(nodes, version, **self.more()), entries)
