"""Document 02, Item 10: two volumes against one drive.

Two messages with one BLAKE2s value can't be had, so no volumes here make the real finder find any.
The found branch is met under a hash cut to one byte, where two messages agree once in 256.
"""

import random

import calls
import tree
from answers import ACCEPTED, NODE, RECORD, Answer, Place
from drive import BLANK
from layout import TAG, layout, read_record
from primitives import blake2s
from twins import Found, message, twins

from checks.make import PRESENT, SALT, Spec, flipped, made
from checks.refusals import MIXED, MOVED

SHAPES = ((1, 1, 64), (2, 3, 64), (3, 2, 64), (4, 1, 64), (5, 2, 64), (33, 64, 64))
ROUNDS = 40
HIGH = 2**40  # a counter that leaves a record many keycounts
DIFFER = (("tags",), ("record",), ("record", "tags"))


def at7(kind, first):
    return Found(Answer(7, Place(kind, first)))


def fresh(n, p, f, version, salt=SALT, secret=PRESENT):
    return calls.format(bytes(layout(n, p, f, version).length), n, p, f, salt, secret, 7, version)


def pair(chance, n, p, f):
    """A drive of either version, its volume, and the volume before its last write or discard."""
    got = fresh(n, p, f, chance.choice((1, 2)), chance.randbytes(16), chance.randbytes(32))
    for _ in range(chance.randrange(1, 5)):
        before, at = got.volume, chance.randrange(n * p * f)
        got = calls.write(got.drive, got.volume, at, b"!")
    if got.drive.version == 2 and chance.randrange(2):
        nugget, flake, _ = got.drive.layout.position(at)
        before, got = got.volume, calls.discard(got.drive, got.volume, nugget, flake, 1)
    return got.drive, got.volume, before


def cases(chance):
    """Sound copies, each damaged in one place or in none, older copies, and what is out of limits."""
    for shape in SHAPES:
        drive, volume, before = pair(chance, *shape)
        lay, n = drive.layout, chance.randrange(shape[0])
        places = [lay.record_at(n), lay.tag_at(n, 0), lay.record_at(0), lay.flakes - 1, lay.flakes, 20]
        places += [lay.node_at(i) for up in range(lay.leaves.bit_length())
                   for i in {lay.leaves + n >> up, max(1, lay.leaves + n >> up ^ 1)}]
        # A copy of the other version has another length.
        copies = [volume, before, volume[:-1], b"", fresh(*shape, 3 - drive.version).volume] + [flipped(volume, at) for at in places]
        for first in copies:
            for second in copies:
                yield drive, first, second, n
        for nugget in (0, shape[0] - 1, shape[0], 2**32 - 1):
            for given in (drive, drive._replace(node1=bytes(32)), drive._replace(f=96), drive._replace(version=3 - drive.version),
                          drive._replace(version=3), BLANK):
                yield given, volume, volume, nugget
                yield given, volume, before, nugget
                yield given, volume[1:], volume, nugget


def refusals(tally):
    """The order, each with the next one's fault beside it."""
    for state, records, version in ((0, MOVED, 1), (1, MIXED, 1), (0, MOVED, 2), (1, MIXED, 2)):
        drive, volume = made(Spec(3, 2, 64, state, 3, 9, records, version=version))
        lay = drive.layout
        record, node, top = (flipped(volume, at) for at in (lay.record_at(1), lay.node_at(2), lay.node_at(1)))
        stale = drive._replace(node1=bytes(32))
        for what, given, want in (
                ("1 before 2", (BLANK, b"", volume, 1), Found(Answer(1))),
                ("2 of the first before 8", (drive, b"", volume, 3), Found(Answer(2))),
                ("2 of the second before 8", (drive, volume, b"", 3), Found(Answer(2))),
                ("2 of the other version", (drive, volume, fresh(3, 2, 64, 3 - version).volume, 3), Found(Answer(2))),
                ("8 before the paths", (drive, record, record, 3), Found(Answer(8))),
                ("the first before the second", (drive, node, record, 1), at7(NODE, 2)),
                ("the first's node 1 before the second", (stale, volume, record, 1), at7(NODE, 1)),
                ("the second", (drive, volume, record, 1), at7(RECORD, 1)),
                ("its path", (drive, volume, node, 1), at7(NODE, 2)),
                ("its node 1", (drive, volume, top, 1), at7(NODE, 1)),
                ("another nugget's record", (drive, volume, record, 2), Found(ACCEPTED)),
                ("a head and a flake", (drive, flipped(volume, 20), flipped(volume, lay.flakes), 1), Found(ACCEPTED)),
                ("one volume twice", (drive, volume, volume, 0), Found(ACCEPTED))):
            tally.same(f"twins, {what}", twins(*given), want)


def cut(key, text):
    return blake2s(key, text)[:1] + bytes(31)


def alike(work, other, lay, n):
    """The lowest node of the path that both have."""
    i = lay.leaves + n
    while tree.node(work, lay, i) != tree.node(other, lay, i):
        i //= 2
    return i


def redraw(chance, work, lay, n, parts):
    """Another keycount in the record of nugget n, in version 2 with other held bits; another tag; or both. And its path made anew."""
    if "record" in parts:
        record = read_record(work, lay, n)
        held = record.spent & chance.getrandbits(lay.p) if lay.version == 2 else record.held
        record = record._replace(keycount=chance.randrange(HIGH), held=held)
        work[lay.record_at(n):lay.record_at(n + 1)] = record.stored(lay.version)
    if "tags" in parts:
        at = lay.tag_at(n, chance.randrange(lay.p))
        work[at:at + TAG] = chance.randbytes(TAG)
    tree.renew(work, lay, n)


def differing(work, other, lay, n):
    at, end = lay.tag_at(n, 0), lay.tag_at(n, 0) + TAG * lay.p
    records = read_record(work, lay, n) != read_record(other, lay, n)
    return ("record",) * records + ("tags",) * (work[at:end] != other[at:end])


def found(tally, chance):
    """Under the cut hash: another record, other tags or both are drawn until node 1 is the same again."""
    met, versions = set(), set()
    for i in range(ROUNDS):
        n, p, f = chance.choice(((1, 1, 64), (2, 2, 64), (3, 2, 64), (5, 1, 64)))
        drive, volume, _ = pair(chance, n, p, f)
        lay, nugget = drive.layout, chance.randrange(n)
        first = bytearray(volume)
        first[lay.tree:lay.flakes] = tree.build(first, lay)
        drive = drive._replace(node1=tree.node(first, lay, 1), counter=HIGH)
        second, parts = bytearray(first), DIFFER[i % len(DIFFER)]
        while second == first or tree.node(second, lay, 1) != drive.node1:
            redraw(chance, second, lay, nugget, parts)
        got, top = twins(drive, bytes(first), bytes(second), nugget), alike(first, second, lay, nugget)
        met.add(lay.leaves + nugget == top)
        versions.add(lay.version)
        tally.same(f"found {i}", got, Found(ACCEPTED, message(first, lay, top), message(second, lay, top)))
        tally.same(f"found {i} differ", (got.one != got.two, differing(first, second, lay, nugget)), (True, parts))
        tally.same(f"found {i} have one value", cut(b"", got.one), cut(b"", got.two))
        tally.same(f"found {i} are as long", len(got.one), len(got.two))
        tally.same(f"nothing {i}", twins(drive, bytes(first), bytes(first), nugget), Found(ACCEPTED))
    tally.same("leaves and inner nodes are met, in both versions", (met, versions), ({True, False}, {1, 2}))


def run(tally):
    chance = random.Random(f"twins {tally.seed}")
    refusals(tally)
    for i, (drive, first, second, n) in enumerate(cases(chance)):
        tally.same(f"twins {i} finds nothing", twins(drive, first, second, n)[1:], (b"", b""))
    real, tree.blake2s = tree.blake2s, cut
    try:
        found(tally, chance)
    finally:
        tree.blake2s = real
