"""Document 02, Item 12: a drive handed to dm-crypt, and back."""

import random

import calls
import xts
from answers import FLAKE, HEAD, RECORD, Answer
from drive import BLANK
from layout import TOP, layout, read_record

from checks.make import Spec, flipped, made
from checks.refusals import at7

ONE, TWO = bytes(range(32)), bytes(range(32, 64))
# N P F a multiple of 512: flakes within a sector, flakes of a sector, flakes over several that begin within one.
EVEN = [(2, 4, 64), (1, 8, 192), (3, 1, 512), (1, 8, 320), (2, 4, 576), (1, 2, 1024)]
ODD = [(1, 1, 64), (3, 2, 64), (1, 3, 512 + 64), (1, 7, 64)]
# IEEE 1619, annex B, vectors 10 and 14: the first bytes and the last.
VECTOR_KEYS = ("2718281828459045235360287471352662497757247093699959574966967627",
               "3141592653589793238462643383279502884197169399375105820974944592")
VECTORS = [(0xFF, "1c3b3a102f770386e4836c99e370cf9b", "c4f36ffda9fcea70b9c6e693e148c151"),
           (0xFFFFFFFFFF, "64497e5a831e4a932c09be3e5393376d", "d609d273ad5b0d59631c531f6a0a57b9")]


def volume_of(shape, chance, counter=9):
    """A drive of either version and cipher, changing or not, with random masks and epochs."""
    n, p, f = shape
    changing, version = chance.randrange(2), chance.choice((1, 2))
    records = []
    for _ in range(n):
        spent = chance.getrandbits(p)
        held = spent if version == 1 else spent & chance.getrandbits(p)
        records.append([chance.randrange(4), spent, held, 3 - (chance.randrange(2) if changing else 0)])
    return made(Spec(n, p, f, changing, 3, counter, records, version=version, cipher=chance.choice((0, 16))))


def vectors(tally):
    one, two = (bytes.fromhex(key) for key in VECTOR_KEYS)
    for number, first, last in VECTORS:
        out = b"".join(xts.added(xts.enciphered(one, xts.added(bytes(range(256))[16 * j % 256:][:16], t)), t)
                       for j, t in enumerate(xts.tweaks(two, number)))
        tally.same(f"IEEE 1619, sector {number}", (out[:16].hex(), out[-16:].hex()), (first, last))


def round_trips(tally, chance):
    """Export, import into another volume, read; and an import beside the one write that it is."""
    for shape in EVEN:
        drive, volume = volume_of(shape, chance)
        whole = layout(*shape).contents
        text = calls.read(drive, volume, 0, bytes(whole)).buffer
        out = calls.export(drive, volume, ONE, TWO, b"!" * whole)
        tally.same(f"export of {shape}", (out.answer, out.drive, out.volume), (Answer(0), drive, volume))
        tally.same(f"{shape} decrypted", xts.decrypted(ONE, TWO, out.buffer), text)
        other = volume_of(shape, chance)
        got = calls.take_in(*other, ONE, TWO, out.buffer)
        tally.same(f"import of {shape}", got, calls.write(*other, 0, text))
        tally.same(f"{shape} counts", (got.answer, got.drive.counter), (Answer(0), 10))
        tally.same(f"{shape} read back", calls.read(got.drive, got.volume, 0, bytes(whole)).buffer, text)
        report = calls.report(got.drive, got.volume).report
        tally.same(f"{shape} present", (report.flakes, report.left), (shape[0] * shape[1], 0))


def refusals(tally, chance):
    """Each refusal before the paths, and which of two is answered."""
    for shape in EVEN[:2] + ODD:
        drive, volume = volume_of(shape, chance)
        whole = layout(*shape).contents
        odd = shape in ODD
        for size in (whole, whole + 512, whole - 64, 0):
            for two in (TWO, ONE):
                want = Answer(2) if odd or size != whole else Answer(10) if two == ONE else Answer(0)
                for call in (calls.export, calls.take_in):
                    got = call(drive, volume, ONE, two, b"!" * size)
                    tally.same(f"{shape}, {size} bytes", got.answer, want)
                    if want.number:
                        tally.same(f"{shape}, {size} bytes, nothing stored", (got.drive, got.volume), (drive, volume))
                    if want.number and call is calls.export:
                        tally.same(f"{shape}, {size} bytes, nothing filled", got.buffer, b"!" * size)


def freed(tally):
    """An export reads discarded places as zero and tests nothing there; an import makes them present again."""
    drive, volume = made(Spec(2, 4, 64, 0, 3, 9, [[1, 5, 3], [0, 15, 3]], version=2))
    lay, text = drive.layout, calls.read(drive, volume, 0, bytes(512)).buffer
    got = calls.discard(drive, volume, 1, 1, 2)
    want = xts.encrypted(ONE, TWO, text[:320] + bytes(128) + text[448:])
    out = calls.export(got.drive, got.volume, ONE, TWO, b"!" * 512)
    tally.same("discarded places are exported as zero", (out.answer, out.buffer), (Answer(0), want))
    bad = flipped(got.volume, lay.flake_at(1, 1))
    tally.same("and not looked at", calls.export(got.drive, bad, ONE, TWO, b"!" * 512).buffer, want)
    back = calls.take_in(got.drive, got.volume, ONE, TWO, want)
    tally.same("an import rekeys", [read_record(back.volume, lay, n) for n in (0, 1)], [(2, 15, 15, 3), (1, 15, 15, 3)])
    tally.same("the same contents", calls.export(back.drive, back.volume, ONE, TWO, b"!" * 512).buffer, want)


def orders(tally, version):
    """1, 2, 7 head before; 13 and the paths behind."""
    spec = Spec(2, 4, 64, 0, 3, 9, [[1, 5, 3], [0, 2, 3]], version=version)
    drive, volume = made(spec)
    lay = drive.layout
    for call in (calls.export, calls.take_in):
        for given, stands, want in ((BLANK, volume, Answer(1)), (drive, volume + b"\0", Answer(2)),
                                    (drive, flipped(volume, 20), at7(HEAD))):
            tally.same(f"{want} before 10", call(given, stands, ONE, ONE, b"!" * 512).answer, want)
        bad = flipped(volume, lay.record_at(1))
        tally.same("10 before a record", call(drive, bad, ONE, ONE, b"!" * 512).answer, Answer(10))
        tally.same("2 before a record", call(drive, bad, ONE, TWO, b"!" * 511).answer, Answer(2))
        tally.same("a record", call(drive, bad, ONE, TWO, b"!" * 512).answer, at7(RECORD, 1))
        bad = flipped(volume, lay.flake_at(0, 2))
        tally.same("a flake", call(drive, bad, ONE, TWO, b"!" * 512).answer, at7(FLAKE, 0, 2))
    drive, volume = made(spec._replace(counter=TOP))
    tally.same("10 before 13", calls.take_in(drive, volume, ONE, ONE, b"!" * 512).answer, Answer(10))
    bad = flipped(volume, lay.record_at(0))
    tally.same("13 before a record", calls.take_in(drive, bad, ONE, TWO, b"!" * 512).answer, Answer(13))
    tally.same("no 13 for an export", calls.export(drive, volume, ONE, TWO, b"!" * 512).answer, Answer(0))


def run(tally):
    chance = random.Random(f"handing {tally.seed}")
    vectors(tally)
    round_trips(tally, chance)
    refusals(tally, chance)
    for version in (1, 2):
        orders(tally, version)
    freed(tally)
