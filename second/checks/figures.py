"""Document 01's figures 1 to 11, the same lengths with version 2's records, and the shapes that are out of limits."""

import calls
from calls import share_of
from drive import BLANK, Drive
from layout import layout, leaves, read_record
from sheet import share_words

from checks.make import PRESENT, SALT, Spec, made

BAD_SHAPES = [(16385, 2, 64), (3, 65, 64), (3, 2, 96), (3, 2, 4160), (0, 2, 64), (3, 0, 64),
              (3, 2, 0), (3, 2, 32), (3, 2, 63), (3, 2, 65), (2**32 - 1,) * 3, (2**32 - 1, 1, 64),
              (1, 2**32 - 1, 64), (1, 1, 2**32 - 64), (16384 + 2**16, 1, 64), (1, 1 + 2**16, 64),
              (1, 1, 64 + 2**16)]
EDGES = [(1, 1, 64), (2, 64, 64), (1, 1, 4096), (16384, 1, 64)]


def lengths(tally):
    lay = layout(3, 2, 64)
    tally.same("figure 1", (lay.length, lay.records, lay.tags, lay.tree, lay.flakes),
               (862, 104, 158, 254, 478))
    tally.same("figure 2", layout(1, 1, 64).length, 234)
    tally.same("figure 3", layout(16384, 64, 4096).length, 4313088072)
    tally.same("figure 4", [leaves(n) for n in (1, 3, 4, 5)], [1, 4, 4, 8])
    tally.same("figure 5", layout(3, 2, 64).position(200), (1, 1, 8))
    lay = layout(3, 2, 64, 2)
    tally.same("figure 1 in version 2", (lay.length, lay.records, lay.tags, lay.tree, lay.flakes),
               (886, 104, 182, 278, 502))
    tally.same("figures 2 and 3 in version 2", [layout(*shape, 2).length for shape in ((1, 1, 64), (16384, 64, 4096))],
               [242, 4313219144])


def shares(tally):
    for name, moved, n, want in (("6", 9996, 10000, "99.96"), ("7", 16383, 16384, "99.99"),
                                 ("8", 10000, 10000, "100.00"), ("9", 0, 1, "0.00"),
                                 ("reading 28", 2, 3, "66.66"), ("one of 16,384", 1, 16384, "0.00"),
                                 ("5 of 10,000", 5, 10000, "0.05")):
        tally.same(f"figure {name}", share_words(share_of(n, moved, n, moved)), want)
    for name, counts, want in (("sheet line", (3, 1, 2, 1), "50.00"),
                               ("full nugget left", (16384, 16383, 64, 0), "0.00"),
                               ("half the data left", (5000, 4999, 128, 64), "50.00"),
                               ("empty nugget left", (2, 1, 64, 64), "99.99"),
                               ("no flake, one left", (16384, 16383, 0, 0), "99.99"),
                               ("no flake, all moved", (5, 5, 0, 0), "100.00"),
                               ("2^20 flakes, one left", (16384, 16383, 2**20, 2**20 - 1), "99.99"),
                               ("2^20 flakes, all moved", (16384, 16384, 2**20, 2**20), "100.00")):
        tally.same(f"share, {name}", share_words(share_of(*counts)), want)


def left_behind(tally):
    """Item 1's accident: thousands of empty nuggets moved say nothing of the data."""
    full, n = 2**64 - 1, 4000
    moved, left, empty = [0, full, 2], [0, full, 1], [3, 0, 2]
    for i, (name, front, back, want) in enumerate((
            ("full one left", [], left, (n, n - 1, 1, 64, 0, 0)),
            ("one full left, one moved", [moved], left, (n, n - 1, 1, 128, 5000, 64)),
            ("full one moved, an empty one left", [[3, 0, 1]], moved, (n, n - 1, 1, 64, 9999, 64)),
            ("full one moved, nothing left", [], moved, (n, n, 0, 64, 10000, 64)),
            ("no flake, one left", [[3, 0, 1]], empty, (n, n - 1, 1, 0, 9997, 0)),
            ("no flake, nothing left", [], empty, (n, n, 0, 0, 10000, 0)))):
        records = front + [empty] * (n - 1 - len(front)) + [back]
        drive, volume = made(Spec(n, 64, 64, 1, 2, 9, records, version=1 + i % 2))
        got = calls.report(drive, volume)
        tally.same(f"report, {name}", (got.answer.number, tuple(got.report)), (0, want))


def writes(tally, version):
    lay = layout(1, 2, 64, version)
    fresh = calls.format(b"\xff" * lay.length, 1, 2, 64, SALT, PRESENT, 0, version)
    now, pads, present_before = fresh, [], 0
    for offset, length in ((0, 64), (64, 64), (0, 1)):
        before = read_record(now.volume, lay, 0)
        now = calls.write(now.drive, now.volume, offset, b"w" * length)
        after = read_record(now.volume, lay, 0)
        pads += now.pads
        present_before += (after.keycount - before.keycount) * len(before.present())
    record = read_record(now.volume, lay, 0)
    tally.same("figure 10", (record.keycount, record.spent, record.held), (1, 3, 3))
    tally.same("figure 10 pads", [pad[:3] for pad in pads],
               [(0, 0, 0), (0, 0, 1), (0, 1, 0), (0, 1, 1)])
    tally.same("figure 10 present and retired", (len(record.present()), present_before), (2, 2))
    once = calls.write(fresh.drive, fresh.volume, 60, b"ten bytes.")
    record = read_record(once.volume, lay, 0)
    tally.same("figure 11", (record.keycount, record.spent, record.held), (0, 3, 3))
    tally.same("figure 11 pads", [pad[:3] for pad in once.pads], [(0, 0, 0), (0, 0, 1)])
    whole = calls.read(once.drive, once.volume, 0, b"?" * 128)
    tally.same("figure 11 bytes", whole.buffer, bytes(60) + b"ten bytes." + bytes(58))
    empty = calls.write(once.drive, once.volume, 128, b"")
    tally.same("length 0 at the end", empty, calls.Result(calls.ACCEPTED, once.drive, once.volume))


def bad_shapes(tally, version):
    good_drive, good = made(Spec(3, 2, 64, 0, 1, 4, [[0, 1, 1]] * 3, version=version))
    for n, p, f in BAD_SHAPES:
        for volume in (b"", bytes(862), good):
            got = calls.format(volume, n, p, f, SALT, PRESENT, 2**64 - 1, version)
            tally.same(f"format {n} {p} {f}", got, calls.Result(calls.Answer(1), BLANK, volume))
        drive = good_drive._replace(n=n, p=p, f=f)
        for got in drive_calls(drive, good):
            tally.same(f"drive {n} {p} {f}", got[:3], (calls.Answer(1), drive, good))
        if p < 2**16 and f < 2**16:
            head = good[:8] + n.to_bytes(4, "little") + p.to_bytes(2, "little")
            head += f.to_bytes(2, "little") + good[16:]
            got = calls.mount(head, PRESENT, bytes(32), 4)
            tally.same(f"mount {n} {p} {f}", got, calls.Result(calls.Answer(1), BLANK, head))


def drive_calls(drive, volume):
    """Every call that takes a drive, with plain arguments."""
    return [calls.read(drive, volume, 0, b"?"), calls.write(drive, volume, 0, b"!"),
            calls.write(drive, volume, 0, b""), calls.begin(drive, volume, b"\x09" * 32),
            calls.sweep(drive, volume, 0), calls.finish(drive, volume), calls.discard(drive, volume, 0, 0, 1),
            calls.queue(drive, volume, calls.request_bytes([(0, 1)]), b"!"), calls.export(drive, volume, b"1" * 32, b"2" * 32, b"?"),
            calls.take_in(drive, volume, b"1" * 32, b"2" * 32, b"!"), calls.report(drive, volume),
            calls.stored_flake(drive, volume, 0, 0)]


def bad_states(tally, version):
    drive, volume = made(Spec(3, 2, 64, 1, 2, 4, [[0, 1, 1]] * 3, version=version))
    for words in ({"state": 2}, {"state": 255}, {"epoch": 0}, {"epoch": 1, "leaving": 0},
                  {"leaving": 2}, {"leaving": 0}, {"leaving": 3}, {"state": 0, "epoch": 0},
                  {"epoch": 0, "leaving": 65535}, {"epoch": 65535}, {"version": 0}, {"version": 3}, {"version": 256 + version},
                  {"cipher": 1}, {"cipher": 15}, {"cipher": 17}, {"cipher": 32}, {"cipher": 255}):
        bad = drive._replace(**words)
        for got in drive_calls(bad, volume):
            tally.same(f"drive with {words}", got[:3], (calls.Answer(1), bad, volume))
    for got in drive_calls(BLANK, volume) + drive_calls(BLANK, b""):
        tally.same("blank drive", (got.answer, got.drive, got.span),
                   (calls.Answer(1), BLANK, (0, 0)))
    for at, byte in ((5, 2), (5, 15), (5, 18), (5, 32), (5, 33), (5, 255), (6, 0), (6, 1)):
        bad = volume[:at] + bytes([byte]) + volume[at + 1:]
        got = calls.mount(bad, PRESENT, bytes(32), 4)
        tally.same(f"mount, head byte {at} is {byte}", got.answer, calls.Answer(1))


def edges(tally, version):
    for n, p, f in EDGES:
        length = layout(n, p, f, version).length
        got = calls.format(bytes([7]) * length, n, p, f, SALT, PRESENT, 2**64 - 2, version)
        want = made(Spec(n, p, f, 0, 1, 2**64 - 1, [[0, 0, 1]] * n, version=version))
        tally.same(f"edge {n} {p} {f}", (got.answer.number, got.drive, got.volume), (0,) + want)
        back = calls.mount(got.volume, PRESENT, b"?" * 32, 2**64 - 1)
        tally.same(f"edge {n} {p} {f} mounted", back.drive, got.drive)
        for wrong in (length - 1, length + 1, 0):
            got = calls.format(bytes(wrong), n, p, f, SALT, PRESENT, 0, version)
            tally.same(f"edge {n} {p} {f} length", got.answer.number, 2)
    largest = Drive(16384, 64, 4096, epoch=1, version=version)
    tally.same("largest shape, no volume", {got.answer.number for got in drive_calls(largest, b"")}, {2})


def run(tally):
    for part in (lengths, shares, left_behind):
        part(tally)
    for part in (writes, bad_shapes, bad_states, edges):
        for version in (1, 2):
            part(tally, version)
