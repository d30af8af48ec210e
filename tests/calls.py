"""The calls through the C interface: the proved library beside the second program, equal to the byte.

Each call that is made of the second program here is made of the proved library too: random volumes with a history, garbage,
and all that the second program's own checks make (each refusal alone and in pairs, one flipped bit in every byte, the tree's
places, queues beside their writes, discards, exports and imports), in both versions. NGT_SEED sets the seed; a failure prints it
with the smallest case. `histories.py` has the histories.
"""
import random
import sys

from beside import Beside
from proved import SEED, Tally, library

import calls
import checks.tally
from checks import discards, edges, figures, flips, garbage, handing, places, queues, refusals
from checks.make import SALT, flipped
from layout import layout

TOP = 2**64 - 1
SHAPES = [(n, p, f) for n in (1, 2, 3, 4, 5, 6, 33) for p, f in ((1, 64), (2, 64), (3, 128), (4, 256), (64, 64))]


def every(source, drive, volume):
    """All calls, with arguments at the edges and past them."""
    number, other = source.choice(garbage.WORDS), source.choice(garbage.WORDS)
    counter = source.choice((drive.counter, drive.counter, 0, TOP))
    shape = source.choice(((drive.n, drive.p, drive.f), (number, other, 64), (number, 2, other)))
    calls.format(volume, *shape, source.randbytes(16), source.randbytes(32), source.choice((counter, source.getrandbits(64))))
    version, cipher = source.choice((1, 2, 2, 0, 3, 65535)), source.choice((0, 0, 16, 16, 1, 17, 32, 255))
    calls.format(volume, *shape, source.randbytes(16), source.randbytes(32), counter, version, cipher)
    calls.mount(volume, drive.present, drive.old, counter)
    calls.mount(volume, *source.choice(((drive.old, drive.present), (drive.present, drive.present))), counter)
    calls.report(drive, volume)
    calls.stored_flake(drive, volume, source.choice((0, drive.n - 1, drive.n, number)) % 2**32, source.choice((0, drive.p - 1, drive.p, other)) % 2**32)
    capacity = drive.n * drive.p * drive.f
    for length in (0, source.choice((1, 10, 64, 65, 200, 700))):
        at = (0, 1, 63, 64, capacity, capacity - length, TOP, source.randrange(capacity + 1), source.getrandbits(64))
        calls.read(drive, volume, source.choice(at) % 2**64, source.randbytes(length))
        calls.write(drive, volume, source.choice(at) % 2**64, source.randbytes(length))
    requests = [(source.choice((0, 64, capacity, source.randrange(capacity + 1))), source.choice((0, 1, 65, 200))) for _ in range(source.randrange(9))]
    image, data = calls.request_bytes(requests), source.randbytes(sum(length for _, length in requests))
    calls.queue(drive, volume, image, source.choice((data, data, data, data + b"!", data[1:])))
    calls.queue(drive, volume, image + source.randbytes(source.randrange(1, 16)), data)
    whole = min(capacity, 1024)
    data, tweak = source.randbytes(32), source.randbytes(32)
    for call in (calls.export, calls.take_in):
        call(drive, volume, data, source.choice((tweak, tweak, tweak, data)), source.randbytes(source.choice((whole, whole, whole, 0, 512))))
    calls.begin(drive, volume, source.choice((drive.present, drive.old, source.randbytes(32))))
    calls.sweep(drive, volume, source.choice((0, drive.n - 1, drive.n, number)) % 2**32)
    calls.finish(drive, volume)
    for count in (0, 1, drive.p, source.choice(garbage.WORDS)):
        first = source.choice((0, 0, drive.p - 1, drive.p, other)) % 2**32
        calls.discard(drive, volume, source.choice((0, drive.n - 1, drive.n, number)) % 2**32, first, count % 2**32)


def lived(source, shape):
    """A volume with a history: writes, a change of the secret, sweeps; then perhaps a flipped bit or a stale drive."""
    n, p, f = shape
    version, cipher = source.choice((1, 2)), source.choice((0, 16))
    result = calls.format(bytes(layout(n, p, f, version).length), n, p, f, SALT, source.randbytes(32), source.randrange(1000), version, cipher)
    drive, volume, before = result.drive, result.volume, result.drive
    for _ in range(source.randrange(1, 12)):
        way, o = source.randrange(8), source.randrange(n * p * f)
        if way < 3:
            result = calls.write(drive, volume, o, source.randbytes(min(n * p * f - o, source.choice((1, 64, 130, 300)))))
        elif way == 3:
            result = calls.begin(drive, volume, source.randbytes(32))
        elif way == 4:
            result = calls.sweep(drive, volume, source.randrange(n))
        elif way > 5:
            first = source.randrange(p)
            result = calls.discard(drive, volume, source.randrange(n), first, source.randint(0, p - first))
        else:
            result = calls.finish(drive, volume)
        before, drive, volume = drive, result.drive, result.volume
    if source.randrange(3) == 0:
        volume = flipped(volume, source.randrange(len(volume)), source.randrange(8))
    return source.choice((drive, drive, drive, before)), volume


def main():
    tally = Tally()
    Beside(library("ngt"), tally)
    for i in range(1000):
        source = random.Random(f"{SEED} garbage {i}")
        every(source, *(garbage.sealed if i % 2 else garbage.wild)(source))
    for shape in SHAPES:
        for i in range(20):
            source = random.Random(f"{SEED} {shape} {i}")
            every(source, *lived(source, shape))
    for group in (figures, refusals, edges, discards, queues, handing, flips, places):
        group.run(checks.tally.Tally(str(SEED)))
    return tally.close()


if __name__ == "__main__":
    sys.exit(main())
