"""Document 02, Item 6: up, down, up again; what each leaves; each refusal alone and in pairs."""

import random
from itertools import combinations

import calls
import moving
from answers import FLAKE, HEAD, NODE, RECORD, Answer
from drive import BLANK
from layout import TAG, TOP, layout, read_record

from checks.choose import shape
from checks.make import OLD, OTHER, PRESENT, Spec, flipped, made
from checks.refusals import MIXED, at7

COUNT = 120


def move(version, drive, volume, second):
    """The move that leaves this version, as it is named now."""
    return (moving.up if version == 1 else moving.down)(drive, volume, second)


def other_length(drive):
    return layout(drive.n, drive.p, drive.f, 3 - drive.version).length


def a_spec(chance, version):
    """Steady or changing, any journals, junk in the tags and flakes of some absent places."""
    n, p, f = shape(chance)
    state, epoch = chance.randrange(2), chance.choice((2, 3, 65535))
    records = [[chance.randrange(9), chance.getrandbits(p), epoch - (chance.randrange(2) if state else 0)] for _ in range(n)]
    ghosts = {(i, j): (chance.randbytes(32), chance.randrange(9), chance.randbytes(f))
              for i in range(n) for j in range(p) if not records[i][1] >> j & 1 and chance.randrange(2)}
    return Spec(n, p, f, state, epoch, chance.choice((8, 9, TOP - 4)), records, version=version, cipher=chance.choice((0, 16)), ghosts=ghosts)


def stands(tally, words, spec, drive, volume, got):
    """The second buffer beside a volume of the other version made from scratch, and what was absent beside the volume left."""
    drive_made, expected = made(spec._replace(version=3 - spec.version, counter=spec.counter + 1, ghosts={}))
    lay, entered = drive.layout, layout(drive.n, drive.p, drive.f, 3 - spec.version)
    after = got.buffer
    tally.same(f"{words}: the given volume", (got.answer, got.volume), (Answer(0), volume))
    tally.same(f"{words}: records", after[104:entered.tags], expected[104:entered.tags])
    tally.same(f"{words}: flakes", after[entered.flakes:], volume[lay.flakes:])
    for n in range(drive.n):
        record = read_record(volume, lay, n)
        for f in range(drive.p):
            at, was = entered.tag_at(n, f), lay.tag_at(n, f)
            kept = expected[at:at + TAG] if record.held >> f & 1 else volume[was:was + TAG]
            tally.same(f"{words}: tag {n} {f}", after[at:at + TAG], kept)
    tally.same(f"{words}: the drive", got.drive._replace(node1=b""), drive_made._replace(node1=b""))
    old = spec.old if spec.state else OTHER
    tally.same(f"{words}: it mounts", calls.mount(after, PRESENT, old, spec.counter + 1), calls.Result(Answer(0), got.drive, after))
    size = entered.contents
    tally.same(f"{words}: contents", calls.read(got.drive, after, 0, bytes(size)).buffer, calls.read(drive, volume, 0, bytes(size)).buffer)
    tally.same(f"{words}: stale", calls.mount(volume, PRESENT, old, spec.counter + 1).answer, Answer(6))


def there_and_back(tally, chance, words):
    """From either version: over, back, over again."""
    spec = a_spec(chance, chance.choice((1, 2)))
    drive, volume = made(spec)
    junk = drive if spec.state else drive._replace(old=chance.choice((drive.old, OTHER)))
    got = move(spec.version, junk, volume, chance.randbytes(other_length(drive)))
    stands(tally, words, spec, drive, volume, got)
    back = move(3 - spec.version, got.drive, got.buffer, chance.randbytes(len(volume)))
    same = [back.buffer[:32], back.buffer[40:72], back.buffer[104:]]
    tally.same(f"{words}: back, but for counter and seal", (back.answer, *same), (Answer(0), volume[:32], volume[40:72], volume[104:]))
    tally.same(f"{words}: counter", back.drive._replace(counter=0), drive._replace(counter=0))
    tally.same(f"{words}: plus 2", back.drive.counter, drive.counter + 2)
    again = move(spec.version, back.drive, back.buffer, bytes(other_length(drive)))
    same = [again.buffer[:32], again.buffer[40:72], again.buffer[104:]]
    tally.same(f"{words}: again", (again.answer, *same), (Answer(0), got.buffer[:32], got.buffer[40:72], got.buffer[104:]))


def discarded(tally, chance, words):
    """16 with the lowest nugget; a write there, or a sweep, and the volume moves down."""
    spec = a_spec(chance, 2)._replace(counter=9)
    records = [[k, journal | 1, epoch] for k, journal, epoch in spec.records]
    drive, volume = made(spec._replace(records=records))
    freed = chance.sample(range(spec.n), chance.randint(1, spec.n))
    for n in freed:
        got = calls.discard(drive, volume, n, 0, 1)
        drive, volume = got.drive, got.volume
    second = chance.randbytes(other_length(drive))
    got = moving.down(drive, volume, second)
    tally.same(f"{words}: 16", got, calls.Result(Answer(16, nugget=min(freed)), drive, volume, second))
    for n in freed:
        got = calls.write(drive, volume, n * spec.p * spec.f, b"!")
        drive, volume = got.drive, got.volume
    tally.same(f"{words}: written", moving.down(drive, volume, second).answer, Answer(0))


class Case:
    """A move in the making; faults change it before it is built."""

    def __init__(self, version):
        self.spec = Spec(3, 2, 64, 1, 3, 9, [list(record) for record in MIXED], version=version)
        self.flips, self.tail, self.drive, self.longer, self.goes = [], b"", {}, 0, version

    def made(self):
        drive, volume = made(self.spec)
        for at in self.flips:
            volume = flipped(volume, at)
        second = b"?" * (layout(3, 2, 64, 3 - self.goes).length + self.longer)
        return self.goes, drive._replace(**self.drive), volume + self.tail, second


def faults(version):
    """In the order of the document; of two the earlier is answered."""
    lay = layout(3, 2, 64, version)

    def flip(at):
        return lambda case: case.flips.append(at)

    def change(**words):
        return lambda case: setattr(case, "spec", case.spec._replace(**words))

    def spent(*nuggets):
        def fault(case):
            for n in nuggets:
                keycount, *_, epoch = case.spec.records[n]
                case.spec.records[n] = [keycount, 3, int(n == 1), epoch]
        return fault

    found = [("P", Answer(1), lambda case: case.drive.update(p=65)),
             ("volume", Answer(2), lambda case: setattr(case, "tail", b"\0")),
             ("second longer", Answer(2), lambda case: setattr(case, "longer", 1)),
             ("second shorter", Answer(2), lambda case: setattr(case, "longer", -1)),
             ("salt", at7(HEAD), flip(20)),
             ("node 1", at7(HEAD), flip(lay.node_at(1))),
             ("version", Answer(9), lambda case: setattr(case, "goes", 3 - version)),
             ("record 0", at7(RECORD, 0), flip(lay.record_at(0))),
             ("record 2", at7(RECORD, 2), flip(lay.tag_at(2, 1))),
             ("node 7", at7(NODE, 7), flip(lay.node_at(7))),
             ("node 2", at7(NODE, 2), flip(lay.node_at(2))),
             ("flake 0 1", at7(FLAKE, 0, 1), flip(lay.flake_at(0, 1) + 63)),
             ("flake 1 0", at7(FLAKE, 1, 0), flip(lay.flake_at(1, 0)))]
    if version == 2:
        found += [("spent 1", Answer(16, nugget=1), spent(1, 2)), ("spent 2", Answer(16, nugget=2), spent(2))]
    return found + [("counter", Answer(13), change(counter=TOP))]


def orders(tally, version):
    listed = faults(version)
    for words, want, fault in listed:
        refused(tally, version, words, want, [fault])
    for (first, want, fault), (later, _, other) in combinations(listed, 2):
        if (first, later) != ("second longer", "second shorter"):
            refused(tally, version, f"{first} and {later}", want, [fault, other])


def refused(tally, version, words, want, changes):
    case = Case(version)
    for fault in changes:
        fault(case)
    goes, drive, volume, second = case.made()
    tally.same(f"version {version}, {words}", move(goes, drive, volume, second), calls.Result(want, drive, volume, second))


def edges(tally):
    """The blank drive; a flake that isn't held isn't looked at; the counter one below its top."""
    for call in (moving.up, moving.down):
        tally.same("blank", call(BLANK, b"", b"?").answer, Answer(1))
    for version in (1, 2):
        drive, volume = made(Spec(1, 2, 64, 0, 3, TOP - 1, [[4, 1, 3]], version=version))
        lay = drive.layout
        second = bytes(other_length(drive))
        tally.same("absent", move(version, drive, flipped(volume, lay.flake_at(0, 1)), second).answer, Answer(0))
        got = move(version, drive, volume, second)
        tally.same("the last one", (got.answer, got.drive.counter), (Answer(0), TOP))
        tally.same("then 13", move(3 - version, got.drive, got.buffer, bytes(lay.length)).answer, Answer(13))
        tally.same("its own version", move(3 - version, drive, volume, bytes(lay.length)).answer, Answer(9))
        tally.same("the length comes first", move(3 - version, drive, volume, second).answer, Answer(2))


def run(tally):
    for i in range(COUNT):
        there_and_back(tally, random.Random(f"moves {i} {tally.seed}"), f"move {i}")
        discarded(tally, random.Random(f"spent {i} {tally.seed}"), f"spent {i}")
    for version in (1, 2):
        orders(tally, version)
    edges(tally)
