"""Limits, and where each part of a volume stands ("Numbers"; "The volume, in order")."""

from functools import lru_cache
from typing import NamedTuple

from primitives import le, number

HEAD, TAG, NODE = 104, 16, 32
# The bytes of a record, by version.
RECORD = {1: 18, 2: 26}
CHACHA20, AES = 0, 16
MOST_NUGGETS, MOST_FLAKES, MOST_SIZE = 16384, 64, 4096
TOP = 2**64 - 1
EPOCH_TOP = 65535


def shape_in_limits(n, p, f, version=1, cipher=CHACHA20):
    return (version in RECORD and cipher in (CHACHA20, AES) and 1 <= n <= MOST_NUGGETS and 1 <= p <= MOST_FLAKES
            and 64 <= f <= MOST_SIZE and f % 64 == 0)


def leaves(n):
    """L, the smallest power of two not below N."""
    return 1 << (n - 1).bit_length()


class Layout:
    """The parts of a volume of one shape. It is numbers only and allocates nothing."""

    def __init__(self, n, p, f, version):
        self.n, self.p, self.f, self.version = n, p, f, version
        self.record = RECORD[version]
        self.leaves = leaves(n)
        self.nodes = 2 * self.leaves - 1
        self.records = HEAD
        self.tags = self.records + self.record * n
        self.tree = self.tags + TAG * n * p
        self.flakes = self.tree + NODE * self.nodes
        self.contents = n * p * f
        self.length = self.flakes + self.contents

    def record_at(self, n):
        return self.records + self.record * n

    def tag_at(self, n, f):
        return self.tags + TAG * (n * self.p + f)

    def node_at(self, i):
        return self.tree + NODE * (i - 1)

    def flake_at(self, n, f):
        return self.flakes + (n * self.p + f) * self.f

    def position(self, offset):
        """Nugget, flake and byte of an offset."""
        whole, byte = divmod(offset, self.f)
        return whole // self.p, whole % self.p, byte


@lru_cache(maxsize=256)
def layout(n, p, f, version=1):
    return Layout(n, p, f, version)


def flakes_in(mask):
    """The flakes of a mask, ascending."""
    return [f for f in range(64) if mask >> f & 1]


class Record(NamedTuple):
    """`spent` are the flakes whose pad was used under this keycount, `held` those that hold contents.
    Version 1 has one mask, the journal, for both."""
    keycount: int
    spent: int
    held: int
    epoch: int

    def stored(self, version):
        masks = le(self.held, 8) if version == 1 else le(self.spent, 8) + le(self.held, 8)
        return le(self.keycount, 8) + masks + le(self.epoch, 2)

    def present(self):
        """The flakes held, ascending."""
        return flakes_in(self.held)

    def well_formed(self, p, epoch, changing, counter):
        if self.spent >> p or self.held & ~self.spent or self.keycount > counter:
            return False
        return self.epoch == epoch or (changing and self.epoch == epoch - 1)


def read_record(volume, lay, n):
    at = lay.record_at(n)
    words = [number(volume[i:i + 8]) for i in range(at, at + lay.record - 2, 8)]
    return Record(words[0], words[1], words[-1], number(volume[at + lay.record - 2:at + lay.record]))
