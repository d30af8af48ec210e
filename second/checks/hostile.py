"""Histories that go on from whatever stands: damage, old images and drives put back, garbage.

Numbers may also be set anew under a good tree and a good seal, as one who has the secrets could.
Nothing is claimed of such a history but that each answer is one its call may give and that a
refusal leaves all as it came; the proved library is held against the same calls.
"""

import calls
import keys
import tree
from drive import BLANK, drive_of_image, head_bytes, head_front
from layout import EPOCH_TOP, HEAD, TOP, layout, read_record, shape_in_limits

from checks.choose import a_range, secret
from checks.garbage import WORDS, judged
from checks.make import flipped

FIELDS = ("n", "p", "f", "version", "cipher", "state", "leaving", "epoch", "counter")
CALLS = ("format", "mount", "read", "write", "queue", "begin", "sweep", "finish", "report",
         "stored_flake", "discard")
WEIGHTS = (1, 3, 5, 8, 4, 1, 6, 4, 2, 1, 6)


class Hostile:
    """A drive and a volume, those that stood at times before, and the last that were sound."""

    def __init__(self, tally, words, chance, shape):
        self.tally, self.words, self.chance = tally, words, chance
        version = chance.choice((1, 2))
        self.drive, self.volume = BLANK, chance.randbytes(layout(*shape, version).length)
        first = secret(chance)
        self.secrets = [first, bytes(32), b"s" * 32]
        self.kept, self.sound = [], None
        salt, outside = chance.randbytes(16), chance.choice((0, 9, TOP - 30))
        self.call("format", self.volume, *shape, salt, first, outside, version, chance.choice((0, 16)))

    def call(self, name, *values):
        """Makes a call, judges it, and mostly goes back to what was sound after a refusal."""
        given = BLANK if name in ("format", "mount") else self.drive
        got = getattr(calls, name)(*values)
        buffer = values[3] if name == "read" else b""
        judged(self.tally, self.words, name, given, self.volume, got, buffer)
        if got.answer.number:
            self.drive, self.volume = got.drive, got.volume
            if self.sound and self.chance.random() < 0.85:
                self.drive, self.volume = self.sound
        elif name not in ("read", "report", "stored_flake"):
            self.drive, self.volume = self.sound = got.drive, got.volume
            self.kept.append(self.sound)

    def set(self, work, n, **numbers):
        lay = self.drive.layout
        at = lay.record_at(n)
        work[at:lay.record_at(n + 1)] = read_record(work, lay, n)._replace(**numbers).stored(lay.version)

    def flip(self):
        """A bit of the head, the records, the tags, the tree or the flakes."""
        drive, size = self.drive, len(self.volume)
        parts = [(0, size)]
        if shape_in_limits(drive.n, drive.p, drive.f, drive.version, drive.cipher) and drive.layout.length == size:
            lay = drive.layout
            parts = [(0, 5), (5, 16), (0, HEAD), (HEAD, lay.tags), (lay.tags, lay.tree),
                     (lay.tree, lay.flakes), (lay.flakes, size), (lay.flakes, size)]
        at, end = self.chance.choice(parts)
        if at < end:
            at = self.chance.randrange(at, end)
            self.volume = flipped(self.volume, at, self.chance.randrange(8))

    def put_back(self):
        """An old image, an old drive, or both."""
        drive, volume = self.chance.choice(self.kept)
        way = self.chance.randrange(3)
        self.drive = self.drive if way == 0 else drive
        self.volume = self.volume if way == 1 else volume

    def garble(self):
        """A drive with a field of garbage, or nothing but garbage, or another's secret."""
        chance, way = self.chance, self.chance.randrange(5)
        if way == 0:
            self.drive = drive_of_image(chance.randbytes(144))
        elif way == 1:
            self.drive = BLANK
        elif way == 2:
            name = chance.choice(("node1", "present", "old"))
            self.drive = self.drive._replace(**{name: chance.randbytes(32)})
        else:
            name = chance.choice(FIELDS)
            width = {"state": 2**8, "cipher": 2**8, "leaving": 2**16, "epoch": 2**16, "version": 2**16}.get(name, 2**32)
            self.drive = self.drive._replace(**{name: chance.choice(WORDS) % width})

    def cut(self):
        """A volume of another length."""
        volume = self.volume
        self.volume = self.chance.choice((volume[:-1], volume + b"\0", volume[:HEAD - 1], b"",
                                          volume[:HEAD], volume[self.chance.randrange(HEAD):]))

    def reseal(self):
        """Numbers near their tops and records of any kind, under a good tree and a good seal."""
        if not self.sound:
            return
        self.drive, volume = self.sound
        work = bytearray(volume)
        for _ in range(self.chance.choice((1, 1, 2, 3))):
            self.chance.choice((self.top_counter, self.top_epoch, self.some_record,
                                self.some_record, self.all_moved, self.some_tag))(work)
        lay = self.drive.layout
        if self.chance.random() < 0.8:
            work[lay.tree:lay.flakes] = tree.build(work, lay)
        if self.chance.random() < 0.25:
            self.some_node(work)
        self.drive = self.drive._replace(node1=tree.node(work, lay, 1))
        work[:HEAD] = head_bytes(self.drive)
        if self.chance.random() < 0.1:
            front = head_front(self.drive)[:40] + self.chance.randbytes(32)
            work[:HEAD] = front + keys.seal(self.drive.present, front, self.drive.node1)
        self.volume = bytes(work)

    def top_counter(self, work):
        self.drive = self.drive._replace(counter=TOP - self.chance.choice((0, 0, 1, 2)))

    def top_epoch(self, work):
        """The drive's epoch at its top, and each record moved with it."""
        up = EPOCH_TOP - self.drive.epoch
        for n in range(self.drive.n):
            epoch = read_record(work, self.drive.layout, n).epoch
            self.set(work, n, epoch=(epoch + up) % 2**16)
        leaving = EPOCH_TOP - 1 if self.drive.changing else 0
        self.drive = self.drive._replace(epoch=EPOCH_TOP, leaving=leaving)

    def some_record(self, work):
        chance, drive = self.chance, self.drive
        n = chance.randrange(drive.n)
        journals = (0, 2**drive.p - 1, 2**drive.p % 2**64, chance.getrandbits(64))
        way = chance.randrange(4)
        if way < 2:
            counter = drive.counter
            self.set(work, n, keycount=chance.choice((TOP, counter, counter, min(counter + 1, TOP))))
        elif way == 2:
            spent, held = chance.choice(journals), chance.choice(journals)
            self.set(work, n, spent=spent, held=chance.choice((spent, spent & held, held)))
        else:
            self.set(work, n, epoch=(drive.epoch + chance.choice((0, -1, -1, 1, -2))) % 2**16)

    def all_moved(self, work):
        for n in range(self.drive.n):
            self.set(work, n, epoch=self.drive.epoch)

    def some_tag(self, work):
        lay = self.drive.layout
        work[self.chance.randrange(lay.tags, lay.tree)] ^= 1 << self.chance.randrange(8)

    def some_node(self, work):
        """A node that is no nugget's leaf, if there is one."""
        lay = self.drive.layout
        others = [*range(1, lay.leaves), *range(lay.leaves + lay.n, lay.nodes + 1)]
        if others:
            work[lay.node_at(self.chance.choice(others)) + self.chance.randrange(32)] ^= 1

    def mischief(self):
        self.chance.choices((self.flip, self.put_back, self.garble, self.cut, self.reseal),
                            (6, 1, 2, 2, 5))[0]()

    def a_range(self):
        """A range of the sound drive, whatever the drive given is."""
        drive = self.sound[0]
        return a_range(self.chance, drive.n * drive.p * drive.f)

    def index(self, which):
        """A nugget or a flake, mostly one that is there."""
        there = self.chance.randrange(self.sound[0][which])
        return there if self.chance.random() < 0.8 else self.chance.choice(WORDS)

    def arguments(self, name):
        chance, drive, volume = self.chance, self.drive, self.volume
        if name == "format":
            shape = drive[:3] if chance.random() < 0.7 else [chance.choice(WORDS) for _ in range(3)]
            return (volume, *shape, chance.randbytes(16), secret(chance), chance.choice((0, 5, TOP)),
                    chance.choice((drive.version, 1, 2, chance.choice(WORDS) % 2**16)),
                    chance.choice((drive.cipher, 0, 16, chance.randrange(256))))
        if name == "mount":
            present = drive.present if chance.random() < 0.8 else chance.choice(self.secrets)
            old = drive.old if chance.random() < 0.7 else chance.choice(self.secrets)
            outside = drive.counter if chance.random() < 0.8 else chance.choice((0, 9, 10, TOP))
            return volume, present, old, outside
        if name in ("read", "write"):
            offset, length = self.a_range()
            return drive, volume, offset, chance.randbytes(length)
        if name == "queue":
            requests = [self.a_range() for _ in range(chance.randint(0, 4))]
            off = chance.choice((0, 0, 0, 0, 1))
            data = chance.randbytes(sum(length for _, length in requests) + off)
            return drive, volume, calls.request_bytes(requests), data
        if name == "begin":
            return drive, volume, chance.choice((*self.secrets, secret(chance), drive.present))
        if name == "sweep":
            return drive, volume, self.index(0)
        if name == "stored_flake":
            return drive, volume, self.index(0), self.index(1)
        if name == "discard":
            count = chance.choice((0, 1, 1, 2, chance.choice(WORDS)))
            return drive, volume, self.index(0), chance.choice((0, self.index(1))), count
        return drive, volume

    def step(self):
        """Perhaps a mischief; then one of the calls with any arguments."""
        if self.chance.random() < 0.4:
            self.mischief()
        name = self.chance.choices(CALLS, WEIGHTS)[0]
        if name in ("sweep", "finish") and not self.drive.changing and self.chance.random() < 0.6:
            name = "begin"
        self.call(name, *self.arguments(name))
