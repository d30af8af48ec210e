"""Document 02, Item 9: the summary beside the tree. Node i has 12 bytes at 12 (i - 1): the moved nuggets and the present flakes
beneath it, and the present flakes in moved nuggets, 4 bytes each. Each call gives a Result with the summary in `buffer`."""

from answers import ACCEPTED, Answer
from calls import Report, Result, share_of, whole_answer
from drive import head_test, shape_and_length_test
from layout import leaves, read_record
from nuggets import path_answer
from primitives import le, number

ENTRY = 12
NOTHING = (0, 0, 0)


def length(n):
    return ENTRY * (2 * leaves(n) - 1)


def entry(summary, i):
    at = ENTRY * (i - 1)
    return tuple(number(summary[at + k:at + k + 4]) for k in (0, 4, 8))


def stored(entries):
    return b"".join(le(value, 4) for one in entries for value in one)


def added(entries):
    """Sums roll over at 32 bits, which only bytes that are no summary can make them do."""
    return tuple(sum(values) % 2**32 for values in zip(NOTHING, *entries))


def nugget_entry(drive, volume, n):
    record = read_record(volume, drive.layout, n)
    flakes = len(record.present())
    return (1, flakes, flakes) if record.epoch == drive.epoch else (0, flakes, 0)


def beneath(drive, volume, i):
    """Counted from the nuggets themselves: node i stands over the leaves with its number in front."""
    first = last = i
    while first < drive.layout.leaves:
        first, last = 2 * first, 2 * last + 1
    first, last = first - drive.layout.leaves, last - drive.layout.leaves
    return added([nugget_entry(drive, volume, n) for n in range(first, min(last + 1, drive.n))])


def made(drive, volume):
    """The summary that belongs to drive and volume."""
    return stored(beneath(drive, volume, i) for i in range(1, drive.layout.nodes + 1))


def top_tests(drive, volume, summary):
    """1, 2, 2 of the summary, 7 head."""
    bad = shape_and_length_test(drive, volume)
    if not bad and len(summary) != length(drive.n):
        bad = Answer(2)
    return bad or head_test(drive, volume)


def build(drive, volume, summary):
    bad = top_tests(drive, volume, summary) or whole_answer(drive, volume)
    return Result(bad or ACCEPTED, drive, volume, summary if bad else made(drive, volume))


def nugget_tests(drive, volume, nugget):
    return Answer(8) if nugget >= drive.n else path_answer(volume, drive, nugget)


def renew(drive, volume, summary, nugget):
    """The nugget's leaf, then each node above it as the sum of the two entries that stand below."""
    bad = top_tests(drive, volume, summary) or nugget_tests(drive, volume, nugget)
    if bad:
        return Result(bad, drive, volume, summary)
    entries = [entry(summary, i) for i in range(1, drive.layout.nodes + 1)]
    i = drive.layout.leaves + nugget
    entries[i - 1] = nugget_entry(drive, volume, nugget)
    while i > 1:
        i //= 2
        entries[i - 1] = added([entries[2 * i - 1], entries[2 * i]])
    return Result(ACCEPTED, drive, volume, stored(entries))


def top(drive, volume, summary):
    """The report from the entry of node 1. In bytes that are no summary left is never below 0 and the share at most 100.00."""
    bad = top_tests(drive, volume, summary)
    if bad:
        return Result(bad, drive, volume, summary)
    moved, flakes, done = entry(summary, 1)
    share = min(share_of(drive.n, moved, flakes, done), 10000)
    told = Report(drive.n, moved, max(drive.n - moved, 0), flakes, share, done)
    return Result(ACCEPTED, drive, volume, summary, report=told)
