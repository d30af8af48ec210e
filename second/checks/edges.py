"""What is no fault, what a call leaves in the drive, and answers at the edges of arguments."""

import calls
from answers import HEAD, RECORD, Answer
from layout import TOP

from checks.make import OLD, OTHER, PRESENT, Spec, flipped, made
from checks.refusals import MIXED, MOVED, at7, empty_write, read_call, stored_call, write_call

# Where the flakes of three nuggets with two flakes of 64 bytes begin, by version.
FLAKES = {1: 478, 2: 502}


def not_refused(tally, version):
    """What looks like a fault of a call and is none."""
    drive, volume = made(Spec(3, 2, 64, 1, 3, TOP, MIXED, version=version))
    tally.same("an empty write at the top", calls.write(drive, volume, 0, b""),
               calls.Result(Answer(0), drive, volume))
    absent = flipped(volume, drive.layout.flake_at(2, 1))
    tally.same("an absent flake isn't tested", read_call(drive, absent).buffer,
               read_call(drive, volume).buffer)
    case = [[9, 1, 3], [9, 0, 3], [0, 3, 3]]
    drive, volume = made(Spec(3, 2, 64, 0, 3, 9, case, version=version))
    got = calls.write(drive, flipped(volume, drive.layout.flake_at(0, 0)), 64, b"!" * 128)
    tally.same("no rekey, so no flake test", (got.answer, [pad[:3] for pad in got.pads]),
               (Answer(0), [(0, 9, 1), (1, 9, 0)]))
    got = calls.begin(drive, flipped(volume, drive.layout.record_at(1)), OTHER)
    tally.same("begin tests no record", got.answer, Answer(0))
    got = calls.stored_flake(drive, flipped(volume, 0), 1, 1)
    tally.same("stored flake tests no head", (got.answer, got.span), (Answer(0), (FLAKES[version] + 192, 64)))
    got = calls.mount(volume, PRESENT, PRESENT, 9)
    tally.same("both secrets may be equal", got.drive, drive)
    got = calls.mount(made(Spec(3, 2, 64, 1, 3, 9, MIXED, old=PRESENT, version=version))[1], PRESENT, PRESENT, 9)
    tally.same("both secrets may be equal while changing", got.answer, Answer(0))


def junk_kept(tally, version):
    """A steady drive's old secret and epoch being left: not looked at, kept by calls that
    change nothing, zeros after an accepted change."""
    drive, volume = made(Spec(3, 2, 64, 0, 3, 9, MOVED, version=version))
    junk = drive._replace(old=OTHER, leaving=77)
    for got in (read_call(junk, volume), empty_write(junk, volume), calls.report(junk, volume),
                stored_call(junk, volume), calls.sweep(junk, volume, 0), calls.discard(junk, volume, 2, 1, 1)):
        tally.same("junk kept", (got.drive, got.volume), (junk, volume))
    got, clean = write_call(junk, volume), write_call(drive, volume)
    tally.same("zeros after a write", got, clean)
    tally.same("zeros there", (got.drive.old, got.drive.leaving), (bytes(32), 0))
    got = calls.begin(junk, volume, OTHER)
    tally.same("begin keeps the present one", got, calls.begin(drive, volume, OTHER))
    tally.same("kept there", (got.drive.old, got.drive.leaving), (PRESENT, 3))
    drive, volume = made(Spec(3, 2, 64, 1, 3, 9, MOVED, version=version))
    got = calls.finish(drive, volume)
    tally.same("zeros after a finish", got.drive, drive._replace(state=0, leaving=0, counter=10,
                                                                old=bytes(32)))


def more_answers(tally, version):
    """Ranges over plain integers, the steady check, counts left, and wrong drive secrets."""
    drive, volume = made(Spec(3, 2, 64, 1, 3, 9, MIXED, version=version))
    for offset, length in ((TOP, 2), (TOP, 1), (TOP, 0), (385, 0), (384, 1), (383, 2), (0, 385)):
        got = calls.read(drive, volume, offset, b"?" * length).answer.number
        tally.same(f"read {offset} {length}", got, 8)
        got = calls.write(drive, volume, offset, b"!" * length).answer.number
        tally.same(f"write {offset} {length}", got, 8)
    for nugget, flake in ((2**32 - 1, 0), (0, 2**32 - 1), (0, 65536), (65536, 0), (3, 2), (0, 2),
                          (1, 3)):
        got = calls.stored_flake(drive, volume, nugget, flake)
        tally.same(f"stored flake {nugget} {flake}", (got.answer.number, got.span), (8, (0, 0)))
    for nugget, flake, at in ((0, 0, 0), (0, 1, 64), (1, 0, 128), (2, 1, 320)):
        got = calls.stored_flake(drive, volume, nugget, flake)
        tally.same(f"stored flake {nugget} {flake}", (got.answer.number, got.span), (0, (FLAKES[version] + at, 64)))
    tally.same("two left", calls.finish(drive, volume).answer, Answer(11, left=2))
    for n in range(3):
        tally.same(f"sweep of {n}", calls.sweep(drive, volume, n).answer.number, (0, 12, 0)[n])
    for n in (3, 65536, 2**31, 2**32 - 1):
        tally.same(f"sweep of {n}", calls.sweep(drive, volume, n).answer, Answer(8))
    for words in ({"old": OTHER}, {"present": OTHER}, {"counter": 8}, {"salt": bytes(16)},
                  {"node1": bytes(32)}, {"epoch": 4, "leaving": 3}):
        got = calls.report(drive._replace(**words), volume)
        tally.same(f"drive with another {words}", got.answer, at7(HEAD))
    drive, odd = made(Spec(3, 2, 64, 0, 3, 9, MIXED, version=version))
    for got in (calls.mount(odd, PRESENT, OLD, 9), read_call(drive, odd), write_call(drive, odd),
                calls.report(drive, odd)):
        tally.same("one less while steady", got.answer, at7(RECORD, 0))
    _, odd = made(Spec(3, 2, 64, 0, 3, 9, MOVED, check=b"\x01" + bytes(31), version=version))
    tally.same("steady, check not zero", calls.mount(odd, PRESENT, OLD, 9).answer, Answer(5))


def keycounts(tally, version):
    """Document 02, Item 7: a keycount equal to the counter is no fault, one above it is, for every
    path and every whole test. At the counter's top 13 comes before any rekey."""
    for counter in (0, 1, 9, TOP - 1, TOP):
        for n in range(3):
            records = [[0, 3, 2 + (i == 1)] for i in range(3)]
            records[n][0] = counter
            spec = Spec(3, 2, 64, 1, 3, counter, records, version=version)
            drive, volume = made(spec)
            late = 13 if counter == TOP else 0
            for got, want in ((calls.mount(volume, PRESENT, OLD, counter), 0),
                              (calls.report(drive, volume), 0), (read_call(drive, volume), 0),
                              (write_call(drive, volume), late),
                              (calls.sweep(drive, volume, n), 12 if n == 1 else late),
                              (calls.discard(drive, volume, n, 0, 1), 9 if version == 1 else late)):
                tally.same(f"keycount {n} at the counter {counter}", got.answer, Answer(want))
            if counter == TOP:
                continue
            got = write_call(drive, volume)
            tally.same(f"keycount {n} raised with the counter {counter}",
                       (got.drive.counter, got.pads[2 * n][:3]), (counter + 1, (n, counter + 1, 0)))
            records[n][0] = counter + 1
            drive, volume = made(spec)
            for got in (calls.mount(volume, PRESENT, OLD, counter), calls.report(drive, volume),
                        read_call(drive, volume), write_call(drive, volume),
                        calls.sweep(drive, volume, n), calls.finish(drive, volume)):
                tally.same(f"keycount {n} above the counter {counter}", got.answer, at7(RECORD, n))
            got = calls.discard(drive, volume, n, 0, 1)
            tally.same(f"keycount {n} above the counter {counter}, discard", got.answer, Answer(9) if version == 1 else at7(RECORD, n))
            other = (n + 1) % 3
            got = calls.read(drive, volume, 128 * other, b"?" * 128)
            tally.same(f"keycount {n} above isn't asked of nugget {other}", got.answer, Answer(0))


def run(tally):
    for version in (1, 2):
        not_refused(tally, version)
        keycounts(tally, version)
        junk_kept(tally, version)
        more_answers(tally, version)
