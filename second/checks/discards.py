"""Document 02, Item 4: discard, and what version 2's two masks say."""

import calls
from answers import HEAD, RECORD, Answer
from drive import BLANK
from layout import TOP, layout, read_record

from checks.make import OLD, OTHER, PRESENT, SALT, Spec, flipped, made
from checks.refusals import MIXED, MOVED, at7

LAY = layout(3, 2, 64, 2)


def second(state, records, counter=9):
    return made(Spec(3, 2, 64, state, 3, counter, records, version=2))


def as_given(tally, words, got, answer, drive, volume):
    tally.same(words, got, calls.Result(answer, drive, volume))


def version_1(tally):
    """9 on version 1, after 1, 2 and 7 head, and before all else."""
    for counter in (9, TOP):
        drive, volume = made(Spec(3, 2, 64, 1, 3, counter, MIXED))
        for freed in ((0, 0, 2), (3, 0, 0), (0, 0, 3), (0, 2, 0), (2**32 - 1, 2**32 - 1, 2**32 - 1)):
            as_given(tally, f"version 1, discard {freed}", calls.discard(drive, volume, *freed), Answer(9), drive, volume)
    bad = flipped(volume, 20)
    as_given(tally, "version 1, head", calls.discard(drive, bad, 0, 0, 2), at7(HEAD), drive, bad)


def versions(tally):
    """An unknown version is 3 in a volume, 1 in a drive or a format; an unknown cipher is 1 everywhere."""
    drive, volume = second(1, MIXED)
    for version in (0, 3, 257, 258, 65535):
        bad = volume[:3] + version.to_bytes(2, "little") + volume[5:]
        as_given(tally, f"mount of version {version}", calls.mount(bad, PRESENT, OLD, 9), Answer(3), BLANK, bad)
        odd = drive._replace(version=version)
        as_given(tally, f"drive of version {version}", calls.discard(odd, volume, 0, 0, 2), Answer(1), odd, volume)
        got = calls.format(volume, 3, 2, 64, SALT, PRESENT, 9, version)
        as_given(tally, f"format of version {version}", got, Answer(1), BLANK, volume)
    for cipher in (1, 2, 15, 17, 32, 240, 255):
        got = calls.format(volume, 3, 2, 64, SALT, PRESENT, 9, 2, cipher)
        as_given(tally, f"format with cipher {cipher}", got, Answer(1), BLANK, volume)
        odd = drive._replace(cipher=cipher)
        as_given(tally, f"drive with cipher {cipher}", calls.discard(odd, volume, 0, 0, 2), Answer(1), odd, volume)
    # A drive under the other cipher makes another head.
    odd = drive._replace(cipher=16)
    as_given(tally, "drive under AES", calls.report(odd, volume), at7(HEAD), odd, volume)
    # A volume of one version under a drive of the other hasn't its length.
    as_given(tally, "the other's drive", calls.report(drive._replace(version=1), volume), Answer(2), drive._replace(version=1), volume)


def masks(tally):
    """A held bit that isn't spent is ill formed, and so is a spent one at or above P."""
    for masks in ((1, 2), (0, 1), (2, 3), (4, 0), (7, 3), (2**63, 0), (0, 2**63)):
        drive, volume = second(1, [[4, *masks, 2], [7, 3, 3], [0, 1, 2]])
        for got in (calls.mount(volume, PRESENT, OLD, 9), calls.report(drive, volume), calls.discard(drive, volume, 0, 0, 2),
                    calls.read(drive, volume, 0, b"?"), calls.write(drive, volume, 0, b"!"), calls.sweep(drive, volume, 0)):
            tally.same(f"masks {masks}", got.answer, at7(RECORD, 0))


def nothing_cleared(tally):
    """Accepted, and drive and volume to the bit, at the counter's top too, junk too."""
    for counter in (9, TOP):
        drive, volume = second(0, [[4, 3, 1, 3], [7, 3, 3], [0, 3, 0, 3]], counter)
        junk = drive._replace(old=OTHER, leaving=77)
        for freed in ((0, 1, 1), (0, 2, 0), (0, 0, 0), (2, 0, 2), (1, 1, 0)):
            as_given(tally, f"discard {freed} clears nothing", calls.discard(junk, volume, *freed), Answer(0), junk, volume)
    as_given(tally, "13 with something to clear", calls.discard(drive, volume, 1, 0, 1), Answer(13), drive, volume)
    for freed in ((0, 0, 3), (0, 3, 0), (0, 1, 2), (3, 0, 0), (0, 2**32 - 1, 1), (0, 2**32 - 1, 2**32 - 1), (2**31, 0, 1)):
        as_given(tally, f"discard {freed} past the end", calls.discard(drive, volume, *freed), Answer(8), drive, volume)


def cleared(tally):
    """Held bits alone change, in left nuggets too; then the place reads as zero, and a write there rekeys."""
    drive, volume = second(1, [[4, 3, 2], [7, 3, 3], [0, 1, 2]])
    got = calls.discard(drive, volume, 0, 1, 1)
    was, now = (read_record(v, LAY, 0) for v in (volume, got.volume))
    tally.same("held alone", (got.answer, now), (Answer(0), was._replace(held=1)))
    tally.same("tags and flakes stay", (got.volume[LAY.tags:LAY.tree], got.volume[LAY.flakes:]),
               (volume[LAY.tags:LAY.tree], volume[LAY.flakes:]))
    tally.same("counter", got.drive.counter, drive.counter + 1)
    tally.same("it mounts", calls.mount(got.volume, PRESENT, OLD, 10), calls.Result(Answer(0), got.drive, got.volume))
    tally.same("reads as zero", calls.read(got.drive, got.volume, 64, b"?" * 64).buffer, bytes(64))
    tally.same("its tag isn't looked at", calls.read(got.drive, flipped(got.volume, LAY.flake_at(0, 1)), 64, b"?").answer, Answer(0))
    tally.same("fewer flakes", calls.report(got.drive, got.volume).report.flakes, 4)
    again = calls.write(got.drive, got.volume, 70, b"!!")
    tally.same("the next write rekeys", [pad[:3] for pad in again.pads], [(0, 5, 0), (0, 5, 1)])
    tally.same("zero elsewhere", calls.read(again.drive, again.volume, 64, b"?" * 64).buffer, bytes(6) + b"!!" + bytes(56))
    swept = calls.sweep(got.drive, got.volume, 0)
    tally.same("a sweep frees the pad", read_record(swept.volume, LAY, 0)[:3], (5, 1, 1))
    drive, volume = second(0, MOVED)
    got = calls.discard(drive, volume, 0, 0, 2)
    wrote = calls.write(got.drive, got.volume, 64, b"!")
    tally.same("a rekey marks what it enciphered alone", (read_record(wrote.volume, LAY, 0)[:3], len(wrote.pads)), ((5, 2, 2), 1))


def run(tally):
    version_1(tally)
    versions(tally)
    masks(tally)
    nothing_cleared(tally)
    cleared(tally)
