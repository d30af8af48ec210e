"""The list of encipherings of a history, and what demand 3 says of it."""

import struct

from checks.make import full, h, mixed, pad_of, width


def records_in(volume, n):
    """The records as they stand in a volume's bytes: keycount, spent, held, epoch."""
    version = volume[3]
    row = "<QQH" if version == 1 else "<QQQH"
    return [full(struct.unpack_from(row, volume, 104 + width(version) * i)) for i in range(n)]


def ones(journal):
    return bin(journal).count("1")


class Ledger:
    """Begins with the flakes that are spent in a spec, each listed under its keycount."""

    def __init__(self, tally, words, spec):
        self.tally, self.words = tally, words
        self.n, self.p, self.f, self.salt, self.cipher = spec.n, spec.p, spec.f, spec.salt, spec.cipher
        self.entries, self.blocks, self.last, self.retired = set(), set(), {}, 0
        for n, record in enumerate(spec.records):
            keycount, spent, _, epoch = full(record)
            secret = spec.present if epoch == spec.epoch else spec.old
            self.add([(n, keycount, f, secret) for f in range(spec.p) if spent >> f & 1])

    def add(self, pads):
        """No entry comes twice, and no block of keystream is laid twice."""
        for nugget, keycount, flake, secret in pads:
            entry = nugget, keycount, flake
            key = h(b"N" + self.salt + struct.pack("<I", nugget), secret)
            size = 16 if self.cipher else 64
            first = flake * self.f // size
            blocks = {(key, keycount, block) for block in range(first, first + self.f // size)}
            self.tally.holds(f"{self.words}: {entry} listed once", entry not in self.entries)
            self.tally.holds(f"{self.words}: {entry} laid once", not blocks & self.blocks)
            self.entries.add(entry)
            self.blocks |= blocks
            self.last[nugget, flake] = nugget, keycount, flake, secret

    def changed(self, before, after, pads, model):
        """After an accepted change: the list, its count, and each present flake's pad."""
        was, now = records_in(before, self.n), records_in(after, self.n)
        for one, other in zip(was, now):
            self.tally.holds("keycount rises by one at most", other[0] - one[0] in (0, 1))
            self.retired += (other[0] - one[0]) * ones(one[1])
        self.add(pads)
        spent = sum(ones(record[1]) for record in now)
        self.tally.same(f"{self.words}: entries listed", len(self.entries), spent + self.retired)
        for n, record in enumerate(now):
            self.flakes(after, n, record, model)

    def flakes(self, volume, n, record, model):
        """Stored bytes are the contents under the pad last listed, whose secret is its epoch's."""
        keycount, _, held, epoch = record
        secret = model.present if epoch == model.epoch else model.old
        for f in range(self.p):
            if not held >> f & 1:
                continue
            words = f"{self.words}: flake {n} {f}"
            self.tally.same(words + " last listed", self.last.get((n, f)), (n, keycount, f, secret))
            at = len(volume) - (self.n * self.p - n * self.p - f) * self.f
            pad = pad_of(secret, self.salt, n, keycount, f, self.f, self.cipher)
            self.tally.same(words, volume[at:at + self.f], mixed(model.text(n, f, self.f), pad))
