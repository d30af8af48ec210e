"""The functions beside the calls, through the C interface: lengths, and the lines that hosts print, equal to the second program's.

Lengths at every edge; every kind of an answer's image; drives of many shapes, of both versions, with discarded flakes, steady and
changing, whole, with a flipped bit, with an ill-formed record, with another secret. The bytes behind a line stay as they were. NGT_SEED sets the seed.
"""
import ctypes
import random
import sys

from beside import U32, given_image
from proved import ROOT, SEED, Tally, left, library, room

sys.path.insert(0, str(ROOT / "second"))
import lines  # noqa: E402
from checks.make import OTHER, Spec, flipped, made  # noqa: E402
from layout import EPOCH_TOP, TOP  # noqa: E402

DRIVES = 300
EDGES = (0, 1, 2, 3, 5, 63, 64, 65, 96, 128, 4096, 4160, 16384, 16385, 2**16, 2**32 - 1)
NUMBERS = (*range(19), 255, 256, 263, 2**16 + 7, 2**31, 2**32 - 1)


def lengths(proved, tally):
    proved.ngt_length.restype = proved.ngt_capacity.restype = ctypes.c_uint64
    for n in EDGES:
        for p in EDGES:
            for f in EDGES:
                for version in (0, 1, 2, 3, 257, 258, 65535):
                    got = proved.ngt_length(U32(n), U32(p), U32(f), ctypes.c_uint16(version))
                    tally.same("length", (n, p, f, version), got, lines.length(n, p, f, version))
                tally.same("capacity", (n, p, f), proved.ngt_capacity(U32(n), U32(p), U32(f)), lines.capacity(n, p, f))


def refusals(proved, tally, source):
    for number in NUMBERS:
        for kind in (*range(7), 256, 2**32 - 1):
            for first, second in ((0, 0), (2, 1), (9, 10), (16383, 63), (2**32 - 1, 2**32 - 1), (source.getrandbits(32), source.getrandbits(32))):
                image = b"".join(value.to_bytes(4, "little") for value in (number, kind, first, second))
                given = source.randbytes(128)
                out = room(given)
                said = proved.ngt_refusal_line(image, out)
                want = lines.refusal_line(image)
                tally.same("refusal", image, (said, left(out)), (len(want), want + given[len(want):]))


def some_drive(source):
    n, p = source.choice((1, 2, 3, 4, 5, 7, 33)), source.choice((1, 2, 10, 11, 63, 64))
    state = source.randrange(2)
    epoch = source.choice((1 + state, 10, source.randint(1 + state, EPOCH_TOP), EPOCH_TOP))
    journals = (0, (1 << p) - 1, 1 << source.randrange(p), source.getrandbits(p))
    version = source.choice((1, 2))
    records = []
    for _ in range(n):
        spent = source.choice(journals)
        held = spent & source.choice(journals) if version == 2 else spent
        records.append([source.choice((0, 9, 10 ** source.randrange(20), TOP)), spent, held, epoch - state * source.randrange(2)])
    drive, volume = made(Spec(n, p, 64, state, epoch, source.choice((0, 5, TOP)), records, version=version))
    way = source.randrange(8)
    if way == 0:
        volume = flipped(volume, source.randrange(len(volume)), source.randrange(8))
    elif way == 1:
        drive = drive._replace(present=OTHER)
    elif way == 2:
        volume = volume[:-1] if source.randrange(2) else volume + b"\0"
    elif way == 3:
        drive = drive._replace(**source.choice(({"p": 65}, {"f": 96}, {"n": 0}, {"epoch": 0}, {"counter": drive.counter ^ 1})))
    return drive, volume


def told(proved, tally, source, what, size, drive, volume, *values):
    given, image = source.randbytes(size), given_image(drive)
    mine, vol, out, answer = room(image), room(volume), room(given), room(size=16)
    said = getattr(proved, f"ngt_{what}")(mine, vol, ctypes.c_size_t(len(volume)), *(U32(value) for value in values), out, answer)
    want_answer, want = getattr(lines, what)(drive, volume, *values)
    got = (said, left(out), left(answer), left(mine), left(vol))
    tally.same(what, (drive, values), got, (len(want), want + given[len(want):], want_answer.image(), image, volume), len(volume))


def drives(proved, tally, source):
    for _ in range(DRIVES):
        drive, volume = some_drive(source)
        told(proved, tally, source, "sheet_line", 192, drive, volume)
        for nugget in {0, 1, source.randrange(max(drive.n, 1)), drive.n - 1, drive.n, drive.n + 1, 2**16, 2**32 - 1}:
            told(proved, tally, source, "nugget_line", 320, drive, volume, nugget % 2**32)


def main():
    proved, tally, source = library("ngt"), Tally(), random.Random(f"{SEED} lines")
    lengths(proved, tally)
    refusals(proved, tally, source)
    drives(proved, tally, source)
    sys.exit(tally.close())


main()
