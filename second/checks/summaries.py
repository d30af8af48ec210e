"""Summaries: counted afresh and renewed after every change, the top report, the orders of refusals."""

import random

import calls
import summary
from answers import HEAD, RECORD, Answer
from layout import layout, read_record

from checks.choose import a_range, secret, shape
from checks.make import PRESENT, SALT, Spec, flipped, made
from checks.refusals import MIXED, at7

COUNT, STEPS = 40, 16


def changed(before, after, drive):
    """The nuggets whose records differ."""
    lay = drive.layout
    return [n for n in range(drive.n) if read_record(before, lay, n) != read_record(after, lay, n)]


def a_call(chance, drive, volume):
    kind = chance.choices(("write", "sweep", "discard", "begin", "finish"), (6, 5, 4, 1, 1))[0]
    if kind == "write":
        offset, size = a_range(chance, drive.layout.contents)
        return calls.write(drive, volume, offset, chance.randbytes(min(size, 400)))
    if kind == "sweep":
        return calls.sweep(drive, volume, chance.randint(0, drive.n))
    if kind == "discard":
        first = chance.randrange(drive.p)
        return calls.discard(drive, volume, chance.randint(0, drive.n), first, chance.randint(0, drive.p - first))
    return calls.begin(drive, volume, secret(chance)) if kind == "begin" else calls.finish(drive, volume)


def history(tally, chance, words):
    """After each call the paths of the changed nuggets are renewed, in any order; after a begin all is built again."""
    n, p, f, version = *shape(chance), chance.choice((1, 2))
    now = calls.format(bytes(layout(n, p, f, version).length), n, p, f, SALT, PRESENT, 0, version)
    drive, volume, kept = now.drive, now.volume, chance.randbytes(summary.length(n))
    kept = summary.build(drive, volume, kept).buffer
    for _ in range(STEPS):
        got = a_call(chance, drive, volume)
        begun, order = got.drive.epoch != drive.epoch, changed(volume, got.volume, drive)
        drive, volume = got.drive, got.volume
        chance.shuffle(order)
        for nugget in order:
            kept = summary.renew(drive, volume, kept, nugget).buffer
        fresh = summary.build(drive, volume, chance.randbytes(summary.length(n))).buffer
        tally.same(f"{words}: renewed and built, or begun", kept != fresh, begun)
        kept = fresh
        tally.same(f"{words}: top and whole report", summary.top(drive, volume, kept).report, calls.report(drive, volume).report)


def orders(tally, version):
    """Each fault alone, and each two: the earlier one is named."""
    drive, volume = made(Spec(3, 2, 64, 1, 3, 9, MIXED, version=version))
    good = summary.made(drive, volume)
    faults = [(1, lambda d, v, b, n: (d._replace(p=65), v, b, n), Answer(1)),
              (2, lambda d, v, b, n: (d, v + b"!", b, n), Answer(2)),
              (3, lambda d, v, b, n: (d, v, b[:-1], n), Answer(2)),
              (4, lambda d, v, b, n: (d, flipped(v, 20), b, n), at7(HEAD)),
              (5, lambda d, v, b, n: (d, v, b, 3), Answer(8)),
              (6, lambda d, v, b, n: (d, flipped(v, drive.layout.record_at(1)), b, n), at7(RECORD, 1))]
    for at, (_, first, want) in enumerate(faults):
        for _, second, _ in faults[at:]:
            d, v, b, n = first(*second(drive, volume, good, 1)) if first is not second else first(drive, volume, good, 1)
            tally.same("renewing refused", summary.renew(d, v, b, n), calls.Result(want, d, v, b))
            if n != 1:
                continue
            tally.same("building refused", summary.build(d, v, b), calls.Result(want, d, v, b))
            ends = at < 4
            tally.same("a top report ends with the head", summary.top(d, v, b).answer, want if ends else Answer(0))


def no_summary(tally, version):
    drive, volume = made(Spec(3, 2, 64, 0, 3, 9, [[0, 3, 3], [0, 0, 3], [0, 1, 3]], version=version))
    odd = b"\xff" * summary.length(3)
    got = summary.renew(drive, volume, odd, 0).buffer
    tally.same("sums roll over", summary.entry(got, 2), (0, 1, 1))
    tally.same("bytes that are no summary", tuple(summary.top(drive, volume, odd).report),
               (3, 2**32 - 1, 0, 2**32 - 1, 10000, 2**32 - 1))


def held_counts(tally):
    """Present means held: spent flakes that were discarded count nowhere."""
    drive, volume = made(Spec(3, 2, 64, 1, 3, 9, [[0, 3, 1, 3], [0, 3, 0, 3], [0, 3, 2, 2]], version=2))
    got = summary.build(drive, volume, bytes(summary.length(3))).buffer
    tally.same("entries by held flakes", [summary.entry(got, i) for i in range(1, 8)],
               [(2, 2, 1), (2, 1, 1), (0, 1, 0), (1, 1, 1), (1, 0, 0), (0, 1, 0), (0, 0, 0)])


def run(tally):
    for i in range(COUNT):
        history(tally, random.Random(f"summary {i} {tally.seed}"), f"summary {i}")
    for version in (1, 2):
        orders(tally, version)
        no_summary(tally, version)
    held_counts(tally)
