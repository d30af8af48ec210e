"""Garbage drives, volumes and arguments: an answer always comes, and refusals leave all."""

import random
import re
import tracemalloc

import calls
import sheet
from answers import FLAKE, HEAD, NODE, RECORD
from drive import BLANK, Drive, drive_of_image
from layout import layout

from checks.make import PRESENT, SALT, Spec, flipped, made

ROUNDS = 5000
TOP = 2**64 - 1
WORDS = (0, 1, 2, 3, 5, 63, 64, 65, 96, 128, 4096, 4160, 16384, 16385, 2**16, 2**31, 2**32 - 1)
LINE = re.compile(rb"(nuggets=\d+ moved=\d+ left=\d+ flakes=\d+ share=\d+\.\d\d done=\d+|refused=[1-6] class="
                  rb"(form|key)|refused=7 class=altered place=(record|node) \d+)\n")
# Shapes and versions by their volumes' lengths.
SMALL = {layout(*shape, version).length: (*shape, version) for shape in ((1, 1, 64), (1, 2, 64), (3, 2, 64)) for version in (1, 2)}
# Which numbers each call may give at all.
POSSIBLE = {
    "format": {0, 1, 2, 13}, "mount": {0, 1, 2, 3, 4, 5, 6, 7}, "read": {0, 1, 2, 7, 8},
    "write": {0, 1, 2, 7, 8, 13}, "queue": {0, 1, 2, 7, 8, 13}, "begin": {0, 1, 2, 7, 9, 10, 13, 15},
    "sweep": {0, 1, 2, 7, 8, 9, 12, 13}, "discard": {0, 1, 2, 7, 8, 9, 13}, "finish": {0, 1, 2, 7, 9, 11, 13},
    "report": {0, 1, 2, 7}, "stored_flake": {0, 1, 2, 8},
}
# Which places each call's 7 may carry. Mount tests the head by its seal.
PLACES = {
    "mount": {RECORD, NODE}, "read": {HEAD, RECORD, NODE, FLAKE},
    "write": {HEAD, RECORD, NODE, FLAKE}, "queue": {HEAD, RECORD, NODE, FLAKE}, "begin": {HEAD}, "sweep": {HEAD, RECORD, NODE, FLAKE},
    "discard": {HEAD, RECORD, NODE}, "finish": {HEAD, RECORD, NODE}, "report": {HEAD, RECORD, NODE},
}


def wild_record(chance, p, epoch, counter, version):
    """Well formed or not, as it comes."""
    journal = chance.choice((0, 1, 2**p - 1, 2**p % 2**64, chance.getrandbits(64)))
    epochs = (epoch, epoch, epoch - 1, epoch - 1, epoch - 2, epoch + 1, 65535)
    keycounts = (0, 0, counter, counter, max(counter - 1, 0), min(counter + 1, TOP), TOP)
    held = chance.choice((journal, journal, journal & chance.getrandbits(64), chance.getrandbits(64)))
    return [chance.choice(keycounts), journal, held if version == 2 else journal, chance.choice(epochs) % 65536]


def sealed(chance):
    """A right head and a right tree over garbage records, so that later tests are reached."""
    n, p = chance.randint(1, 5), chance.choice((1, 2, 3, 64))
    state = chance.randrange(2)
    epoch = chance.choice((1 + state, 3, 65534, 65535))
    counter = chance.choice((0, 5, TOP))
    version, cipher = chance.choice((1, 2)), chance.choice((0, 16))
    records = [wild_record(chance, p, epoch, counter, version) for _ in range(n)]
    drive, volume = made(Spec(n, p, 64, state, epoch, counter, records, version=version, cipher=cipher))
    if chance.random() < 0.3:
        volume = flipped(volume, chance.randrange(len(volume)), chance.randrange(8))
    if chance.random() < 0.1:
        field, word = chance.choice(("n", "p", "f", "version")), chance.choice(WORDS)
        drive = drive._replace(**{field: word % 2**16 if field == "version" else word})
    return drive, volume


def wild(chance):
    """Drive and volume of any bytes at all; at times with a head's mark and a small shape."""
    volume = bytearray(chance.randbytes(chance.choice((0, 1, 71, 103, 104, 105, *SMALL))))
    if chance.random() < 0.7 and len(volume) >= 104:
        shape = (chance.choice(WORDS), chance.choice(WORDS) % 65536, chance.choice(WORDS) % 65536)
        version = chance.choice((1, 1, 2, 2, 0, 3))
        if chance.random() < 0.5:
            *shape, version = SMALL.get(len(volume), (*shape, version))
        volume[:8] = b"NGT" + bytes((version, 0, chance.choice((0, 1, 2, 16, 17, 18, 32)), chance.randrange(3), 0))
        volume[8:16] = b"".join(value.to_bytes(width, "little")
                                for value, width in zip(shape, (4, 2, 2)))
    drive = drive_of_image(chance.randbytes(144))
    if chance.random() < 0.7:
        drive = drive._replace(n=chance.choice(WORDS), p=chance.choice(WORDS),
                               f=chance.choice(WORDS), version=chance.randrange(4), cipher=chance.choice((0, 0, 16, 16, 17)), state=chance.randrange(3),
                               epoch=chance.randrange(4), leaving=chance.randrange(3))
    return drive, bytes(volume)


def every_call(chance, drive, volume):
    """Name, given drive, result, given buffer."""
    offset = chance.choice((0, 1, 63, 200, TOP, chance.getrandbits(64)))
    data = chance.randbytes(chance.choice((0, 1, 64, 200)))
    number, other = chance.choice(WORDS), chance.choice(WORDS)
    counter = chance.choice((drive.counter, 0, TOP))
    shape = chance.choice(((drive.n, drive.p, drive.f), (number, other, 64)))
    yield "format", BLANK, calls.format(volume, *shape, SALT, PRESENT, counter), b""
    version, cipher = chance.choice((1, 2, 2, 2, 0, 3, 65535)), chance.choice((0, 0, 16, 16, 1, 17, 32, 255))
    yield "format", BLANK, calls.format(volume, *shape, SALT, PRESENT, counter, version, cipher), b""
    yield "mount", BLANK, calls.mount(volume, drive.present, drive.old, counter), b""
    yield "read", drive, calls.read(drive, volume, offset, data), data
    yield "write", drive, calls.write(drive, volume, offset, data), b""
    size = len(data) // 2
    rest = len(data) - size + chance.choice((0, 0, 1))
    requests = calls.request_bytes(((offset, size), (chance.choice((0, 64)), rest)))
    yield "queue", drive, calls.queue(drive, volume, requests, data), b""
    secret = chance.choice((drive.present, data[:32].ljust(32, b"s")))
    yield "begin", drive, calls.begin(drive, volume, secret), b""
    yield "sweep", drive, calls.sweep(drive, volume, chance.choice((0, 0, number))), b""
    yield "finish", drive, calls.finish(drive, volume), b""
    freed = chance.choice((0, 0, 1, number)), chance.choice((0, 0, other)), chance.choice((0, 1, 1, number))
    yield "discard", drive, calls.discard(drive, volume, *freed), b""
    yield "report", drive, calls.report(drive, volume), b""
    yield "stored_flake", drive, calls.stored_flake(drive, volume, number, other), b""


def judged(tally, words, name, given, volume, got, buffer):
    tally.holds(f"{words} {name} answers {got.answer}", got.answer.number in POSSIBLE[name])
    if got.answer.number and not got.done:
        tally.same(f"{words} {name} refused", got, calls.Result(got.answer, given, volume, buffer))
    else:
        tally.same(f"{words} {name} length", (len(got.volume), len(got.buffer)),
                   (len(volume), len(buffer)))
    if name == "stored_flake" and not got.answer.number:
        whole = layout(given.n, given.p, given.f, given.version).length
        tally.holds(f"{words} span", got.span[1] == given.f and sum(got.span) <= whole)


def small_memory(tally):
    """Shapes that would need gigabytes, on a volume that hasn't them."""
    tracemalloc.start()
    for epoch, version in ((1, 1), (0, 1), (1, 2), (0, 2)):
        drive = Drive(16384, 64, 4096, epoch=epoch, counter=5, version=version)
        for name, _, got, _ in every_call(random.Random(1), drive, bytes(862)):
            tally.holds(f"{name} of the largest shape", got.answer.number in (1, 2, 3))
    peak = tracemalloc.get_traced_memory()[1]
    tracemalloc.stop()
    tally.holds(f"at most a megabyte used, {peak}", peak < 2**20)


def run(tally):
    chance = random.Random(f"garbage {tally.seed}")
    met = {name: set() for name in POSSIBLE}
    for i in range(ROUNDS):
        drive, volume = (sealed if i % 2 else wild)(chance)
        for name, given, got, buffer in every_call(chance, drive, volume):
            judged(tally, f"garbage {i}", name, given, volume, got, buffer)
            met[name].add(got.answer.number)
        data = drive.present + drive.old + drive.counter.to_bytes(8, "little") + volume
        data = data if chance.random() < 0.9 else data[:chance.randrange(len(data))]
        tally.holds(f"garbage {i} sheet", LINE.fullmatch(sheet.line(data)))
    for name in POSSIBLE:
        # A check bad under a good seal is the refusals' own; here only 5 may be missing.
        tally.same(f"answers of {name} met", met[name] | {5} & POSSIBLE[name], POSSIBLE[name])
    small_memory(tally)
