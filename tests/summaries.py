"""Summaries: the proved library beside the second program, through the C interface, all equal to the byte.

After every change of a history, of either version, the renewed summary, the built one and the second program's are one, and the top report is the
whole one; then bytes that are no summary, and each fault before each later one. NGT_SEED sets the seed.
"""
import ctypes
import random
import struct
import sys

from proved import ROOT, SEED, Tally, left, library, room

sys.path.insert(0, str(ROOT / "second"))
import calls  # noqa: E402
import summary  # noqa: E402
from checks.choose import shape  # noqa: E402
from checks.make import SALT, Spec, flipped, made  # noqa: E402
from checks.refusals import MIXED  # noqa: E402
from checks.summaries import a_call, changed  # noqa: E402
from layout import layout  # noqa: E402

U32, SIZE = ctypes.c_uint32, ctypes.c_size_t
HISTORIES, STEPS = 60, 16


class Both:
    """Each call made of the proved library and of the second program, and held equal: number, answer, what is filled, and
    drive, volume and summary where they are only read."""

    def __init__(self, proved, tally):
        self.proved, self.tally = proved, tally

    def made_by(self, name, drive, volume, words, filled):
        image, vol, answer = room(drive.image()), room(volume), room(size=16)
        said = getattr(self.proved, name)(image, vol, SIZE(len(volume)), *words, answer)
        kept = left(image) == drive.image() and left(vol) == volume
        return said, left(answer), kept, *(left(part) for part in filled)

    def same(self, name, case, got, want, *filled):
        self.tally.same(name, case, got, (want.answer.number, want.answer.image(), True, *filled), len(want.volume))

    def build(self, case, drive, volume, given):
        mine, want = room(given), summary.build(drive, volume, given)
        got = self.made_by("ngt_summary_build", drive, volume, (mine, SIZE(len(given))), [mine])
        self.same("build", case, got, want, want.buffer)
        return want.buffer

    def renew(self, case, drive, volume, given, nugget):
        mine, want = room(given), summary.renew(drive, volume, given, nugget)
        got = self.made_by("ngt_summary_renew", drive, volume, (mine, SIZE(len(given)), U32(nugget)), [mine])
        self.same("renew", case, got, want, want.buffer)
        return want.buffer

    def top(self, case, drive, volume, given):
        mine, report, want = room(given), room(size=24), summary.top(drive, volume, given)
        got = self.made_by("ngt_summary_report", drive, volume, (mine, SIZE(len(given)), report), [mine, report])
        self.same("top report", case, got, want, given, struct.pack("<6I", *want.report))
        return want.report

    def tally_of(self, case, drive, volume):
        report, want = room(size=24), calls.report(drive, volume)
        got = self.made_by("ngt_tally", drive, volume, [report], [report])
        self.same("tally", case, got, want, struct.pack("<6I", *want.report))
        return want.report


def history(both, chance, case):
    n, p, f = shape(chance)
    version = chance.choice((1, 2))
    now = calls.format(bytes(layout(n, p, f, version).length), n, p, f, SALT, chance.randbytes(32), 0, version, chance.choice((0, 16)))
    drive, volume, size = now.drive, now.volume, summary.length(n)
    kept = both.build(case, drive, volume, chance.randbytes(size))
    for _ in range(STEPS):
        got = a_call(chance, drive, volume)
        begun, order = got.drive.epoch != drive.epoch, changed(volume, got.volume, drive)
        drive, volume = got.drive, got.volume
        chance.shuffle(order)
        for nugget in order + [chance.randrange(n)] * (not begun):
            kept = both.renew(case, drive, volume, kept, nugget)
        built = both.build(case, drive, volume, chance.randbytes(size))
        both.tally.same("renewed is built, but for a begin", case, (kept != built, built), (begun, summary.made(drive, volume)))
        kept = built
        both.tally.same("top is whole", case, both.top(case, drive, volume, kept), both.tally_of(case, drive, volume))
        garbage = chance.choice((bytes(size), b"\xff" * size, chance.randbytes(size)))
        both.top(case, drive, volume, garbage)
        both.renew(case, drive, volume, garbage, chance.randint(0, n))


def refusals(both, version):
    """1, 2, 2, 7 head, 8, 7 path or whole: each fault alone, and each with each later one."""
    drive, volume = made(Spec(3, 2, 64, 1, 3, 9, MIXED, version=version))
    lay = drive.layout
    faults = [lambda d, v, b, n: (d._replace(p=65), v, b, n), lambda d, v, b, n: (d, v[:-1], b, n),
              lambda d, v, b, n: (d, v, b + b"!", n), lambda d, v, b, n: (d, flipped(v, 16), b, n),
              lambda d, v, b, n: (d, v, b, 2**32 - 1), lambda d, v, b, n: (d, flipped(v, lay.record_at(1)), b, n),
              lambda d, v, b, n: (d, flipped(v, lay.node_at(7)), b, n)]
    for i, first in enumerate(faults):
        for j, second in enumerate(faults[i:]):
            words = first(drive, volume, bytes(summary.length(3)), 1)
            d, v, b, n = second(*words) if j else words
            both.renew((i, j), d, v, b, n)
            both.build((i, j), d, v, b)
            both.top((i, j), d, v, b)
            both.tally_of((i, j), d, v)
    for size in (0, 1, 12, 83, 84, 85, 12 * 15):
        both.build(size, drive, volume, bytes(size))
        both.top(size, drive, volume, bytes(size))


def main():
    both = Both(library("ngt"), Tally())
    for version in (1, 2):
        refusals(both, version)
    for i in range(HISTORIES):
        history(both, random.Random(f"{SEED} summary {i}"), i)
    return both.tally.close()


if __name__ == "__main__":
    sys.exit(main())
