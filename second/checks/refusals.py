"""Each refusal of each call alone, and each pair of faults that can stand together, in both versions.

A call's faults are listed in document 01's order, so of a pair the earlier is answered.
"""

from itertools import combinations

import calls
from answers import FLAKE, HEAD, NODE, RECORD, Answer, Place
from drive import BLANK
from layout import TOP, layout

from checks.make import OLD, OTHER, PRESENT, SALT, Spec, flipped, made

LAY = layout(3, 2, 64)
ALL = LAY.contents


class Case:
    """An input in the making; faults change it in any order before it is built."""

    def __init__(self, state, epoch, records, version):
        self.version = version
        self.spec = {"state": state, "epoch": epoch, "counter": 9, "node1": None, "check": None,
                     "records": [list(record) for record in records]}
        self.flips, self.cut, self.tail, self.drive, self.values = [], None, b"", {}, {}

    def build(self):
        drive, volume = made(Spec(3, 2, 64, **self.spec, version=self.version))
        for at in self.flips:
            # What stands behind the records of version 1 stands three times 8 bytes later in version 2.
            volume = flipped(volume, at + 24 * (self.version == 2 and at >= LAY.tags))
        return drive._replace(**self.drive), (volume + self.tail)[:self.cut]


def at7(kind, *values):
    return Answer(7, Place(kind, *values))


def flip(at):
    return lambda case: case.flips.append(at)


def setting(**words):
    return lambda case: case.spec.update(words)


def value(**words):
    return lambda case: case.values.update(words)


def record(n, field, what):
    def fault(case):
        case.spec["records"][n][field] = what
    return fault


def steady(case):
    case.spec["state"] = 0
    for words in case.spec["records"]:
        words[2] = case.spec["epoch"]


def changing(case):
    case.spec["state"] = 1


def longer(case):
    case.tail = b"\0"


def shorter(case):
    case.cut = -1


def wrong_state(case):
    case.drive["state"] = 2


KEYCOUNT, JOURNAL, EPOCH = range(3)
FIRST = [("shape", Answer(1), wrong_state), ("longer", Answer(2), longer),
         ("shorter", Answer(2), shorter), ("salt", at7(HEAD), flip(20)),
         ("check", at7(HEAD), flip(45)), ("seal", at7(HEAD), flip(103)),
         ("node 1", at7(HEAD), flip(LAY.node_at(1)))]
LATE_COUNTER = ("counter", Answer(13), setting(counter=TOP))


def flake_fault(n, f):
    return (f"flake {n} {f}", at7(FLAKE, n, f), flip(LAY.flake_at(n, f) + 63))


def above(n):
    """Document 02, Item 7: a keycount above the head's counter, which is 9."""
    return (f"keycount {n} above", at7(RECORD, n), record(n, KEYCOUNT, 10))


def tag_fault(n):
    """A tag enters the leaf, so the record fails before the flake's own test."""
    return (f"tag of {n}", at7(RECORD, n), flip(LAY.tag_at(n, 1)))


PATH0 = [tag_fault(0), above(0), ("journal past P", at7(RECORD, 0), record(0, JOURNAL, 7)),
         ("epoch too low", at7(RECORD, 0), record(0, EPOCH, 1)),
         ("epoch too high", at7(RECORD, 0), record(0, EPOCH, 4)),
         ("node 2", at7(NODE, 2), flip(LAY.node_at(2))),
         ("node 3 beside", at7(NODE, 1), flip(LAY.node_at(3)))]
# Node 7 is a padding leaf: a path never tests it, but node 3 isn't made of it.
PATH2 = [tag_fault(2), above(2), ("node 7 below", at7(NODE, 3), flip(LAY.node_at(7)))]
WHOLE = [tag_fault(0), tag_fault(1), above(1), ("journal of 1", at7(RECORD, 1), record(1, JOURNAL, 4)),
         ("leaf of 2", at7(RECORD, 2), flip(LAY.node_at(6))),
         ("epoch of 2", at7(RECORD, 2), record(2, EPOCH, 1)),
         ("node 7", at7(NODE, 7), flip(LAY.node_at(7))),
         ("node 3", at7(NODE, 3), flip(LAY.node_at(3))),
         ("node 2", at7(NODE, 2), flip(LAY.node_at(2))),
         ("node 1 not made", at7(NODE, 1), setting(node1=b"\x55" * 32))]
WRONG_RANGE = ("range", Answer(8), value(offset=1))
MIXED = [(4, 3, 2), (7, 3, 3), (0, 1, 2)]
MOVED = [(4, 3, 3), (7, 3, 3), (0, 1, 3)]


def read_call(drive, volume, offset=0):
    return calls.read(drive, volume, offset, b"?" * ALL)


def write_call(drive, volume, offset=0):
    return calls.write(drive, volume, offset, b"!" * ALL)


def empty_write(drive, volume, offset=ALL):
    return calls.write(drive, volume, offset, b"")


def begin_call(drive, volume, secret=OTHER):
    return calls.begin(drive, volume, secret)


def sweep_call(drive, volume, nugget=0):
    return calls.sweep(drive, volume, nugget)


def stored_call(drive, volume, nugget=2, flake=1):
    return calls.stored_flake(drive, volume, nugget, flake)


def mount_call(_drive, volume, present=PRESENT, old=OLD, outside=9):
    return calls.mount(volume, present, old, outside)


def format_call(drive, volume, shape=(3, 2, 64), outside=9):
    return calls.format(volume, *shape, SALT, PRESENT, outside, drive.version)


def discard_call(drive, volume, nugget=0, count=2):
    return calls.discard(drive, volume, nugget, 0, count)


def cut_short(case):
    case.cut = 100


MOUNT = [("under 104", Answer(2), cut_short), ("mark", Answer(3), flip(2)),
         ("version", Answer(3), flip(4)), ("P", Answer(1), flip(13)),
         ("longer", Answer(2), longer), ("shorter", Answer(2), shorter),
         ("present secret", Answer(4), value(present=OTHER)), ("seal", Answer(4), flip(72)),
         ("old secret", Answer(5), value(old=OTHER)),
         ("check", Answer(5), setting(check=b"\x77" * 32)),
         ("outside", Answer(6), value(outside=8))] + WHOLE
NUGGETS = [*PATH0, flake_fault(0, 0), flake_fault(0, 1), tag_fault(1), above(1),
           flake_fault(1, 0), flake_fault(1, 1), *PATH2, flake_fault(2, 0)]

# name, call, state, epoch, records, faults in order
TABLE = [
    ("read", read_call, 1, 3, MIXED, [*FIRST, WRONG_RANGE, *NUGGETS]),
    ("write", write_call, 1, 3, MIXED, [*FIRST, WRONG_RANGE, LATE_COUNTER, *NUGGETS]),
    ("empty write", empty_write, 1, 3, MIXED, [*FIRST, ("range", Answer(8), value(offset=ALL + 1))]),
    ("begin", begin_call, 0, 3, MOVED,
     [*FIRST, ("changing", Answer(9), changing), ("same", Answer(10), value(secret=PRESENT)),
      ("epoch top", Answer(15), setting(epoch=65535)), LATE_COUNTER]),
    ("sweep", sweep_call, 1, 3, MIXED,
     [*FIRST, ("steady", Answer(9), steady), ("nugget", Answer(8), value(nugget=3)),
      *PATH0, ("moved", Answer(12), record(0, EPOCH, 3)), LATE_COUNTER, flake_fault(0, 0),
      flake_fault(0, 1)]),
    ("finish", lambda drive, volume: calls.finish(drive, volume), 1, 3, MOVED,
     [*FIRST, ("steady", Answer(9), steady), *WHOLE,
      ("one left", Answer(11, left=1), record(1, EPOCH, 2)), LATE_COUNTER]),
    ("report", lambda drive, volume: calls.report(drive, volume), 1, 3, MIXED, FIRST + WHOLE),
    ("stored flake", stored_call, 1, 3, MIXED,
     [*FIRST[:3], ("nugget", Answer(8), value(nugget=3)), ("flake", Answer(8), value(flake=2))]),
    ("mount", mount_call, 1, 3, MIXED, MOUNT),
    ("format", format_call, 1, 3, MIXED,
     [("N", Answer(1), value(shape=(0, 2, 64))), ("longer", Answer(2), longer),
      ("shorter", Answer(2), shorter), ("counter", Answer(13), value(outside=TOP))]),
]
DISCARD = ("discard", discard_call, 1, 3, MIXED,
           [*FIRST, ("nugget", Answer(8), value(nugget=3)), ("range", Answer(8), value(count=3)), *PATH0,
            LATE_COUNTER])
# Faults that set one and the same thing, or that undo each other, can't be had together.
APART = [{"longer", "shorter"}, {"under 104", "longer"}, {"under 104", "shorter"},
         {"steady", "one left"}, {"nugget", "flake"}, {"check", "old secret"},
         {"epoch too low", "epoch too high"}, {"epoch too low", "moved"},
         {"epoch too high", "moved"}, {"steady", "epoch too low"}, {"steady", "epoch too high"},
         # No keycount is above a counter at its top.
         *({"counter", f"keycount {n} above"} for n in range(3))]


def tried(tally, row, faults, version):
    name, call, state, epoch, records, _ = row
    case = Case(state, epoch, records, version)
    for _, _, fault in faults:
        fault(case)
    drive, volume = case.build()
    got = call(drive, volume, **case.values)
    words = f"{name} of version {version} with {[fault[0] for fault in faults]}"
    if not faults:
        tally.same(words, got.answer, Answer(0))
        return
    after = BLANK if name in ("mount", "format") else drive
    buffer = b"?" * ALL if name == "read" else b""
    tally.same(words, got, calls.Result(faults[0][1], after, volume, buffer))


def all_tried(tally, row, version):
    tried(tally, row, [], version)
    for fault in row[5]:
        tried(tally, row, [fault], version)
    for pair in combinations(row[5], 2):
        if {pair[0][0], pair[1][0]} not in APART:
            tried(tally, row, pair, version)


def run(tally):
    for version in (1, 2):
        for row in TABLE:
            all_tried(tally, row, version)
    all_tried(tally, DISCARD, 2)
