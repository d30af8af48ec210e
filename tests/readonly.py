"""100,000 calls that may store nothing, on pages that can't be written and before pages that can't be touched.

The specimens are made here by the second program: garbage, garbage under a right seal, and volumes with a history, whole,
damaged and too short. `readonly.c` makes the calls, against the archive as it is shipped; those that are given no bytes of
something also with a null pointer for it. NGT_SEED sets the seed.
"""
import os
import random
import subprocess
import sys

from shipped import ROOT, program

sys.path.insert(0, str(ROOT / "second"))
import calls  # noqa: E402
from checks import garbage  # noqa: E402
from checks.make import SALT, flipped  # noqa: E402
from layout import layout  # noqa: E402

MADE = ROOT / "target" / "readonly"
SEED = int(os.environ.get("NGT_SEED", "1"))
# Two of them have contents of one and two sectors.
SHAPES = ((1, 1, 64), (3, 2, 64), (2, 3, 128), (4, 64, 64), (5, 1, 256), (4, 2, 64), (1, 4, 256))
EACH = 150


def lived(source):
    """A volume with a history, near the counter's top in every other case; the drive may be an earlier one."""
    n, p, f = source.choice(SHAPES)
    version, cipher = source.choice((1, 2)), source.choice((0, 16))
    outside = source.choice((source.randrange(1000), garbage.TOP - source.randint(1, 4)))
    result = calls.format(bytes(layout(n, p, f, version).length), n, p, f, SALT, source.randbytes(32), outside, version, cipher)
    drive, volume, before = result.drive, result.volume, result.drive
    for _ in range(source.randrange(8)):
        o = source.randrange(n * p * f)
        call = source.choice((lambda: calls.write(drive, volume, o, source.randbytes(min(n * p * f - o, 100))),
                              lambda: calls.begin(drive, volume, source.randbytes(32)),
                              lambda: calls.sweep(drive, volume, source.randrange(n)), lambda: calls.finish(drive, volume),
                              lambda: calls.discard(drive, volume, source.randrange(n), 0, source.randint(0, p))))
        result = call()
        before, drive, volume = drive, result.drive, result.volume
    if source.randrange(4) == 0:
        volume = flipped(volume, source.randrange(len(volume)), source.randrange(8))
    if source.randrange(8) == 0:
        volume = source.choice((volume[:-1], volume + b"\0", volume[:104], volume[:71]))
    return source.choice((drive, drive, drive, before)), volume


def spent(source):
    """Changing, every nugget moved, the counter at its top."""
    n, p, f = source.choice(SHAPES)
    version, cipher = source.choice((1, 2)), source.choice((0, 16))
    length = layout(n, p, f, version).length
    result = calls.format(bytes(length), n, p, f, SALT, source.randbytes(32), garbage.TOP - n - 2, version, cipher)
    result = calls.begin(result.drive, result.volume, source.randbytes(32))
    for nugget in range(n):
        result = calls.sweep(result.drive, result.volume, nugget)
    return result.drive, result.volume


def specimens():
    for make, count in ((garbage.wild, EACH), (garbage.sealed, EACH), (lived, 2 * EACH), (spent, 10)):
        for i in range(count):
            source = random.Random(f"{SEED} {make.__name__} {i}")
            drive, volume = make(source)
            yield len(volume).to_bytes(4, "little") + drive.image() + volume


def main():
    MADE.mkdir(parents=True, exist_ok=True)
    (MADE / "specimens").write_bytes(b"".join(specimens()))
    run = program(ROOT / "tests/readonly.c", MADE / "readonly", "-D_DEFAULT_SOURCE")
    sys.stdout.flush()
    sys.exit(subprocess.run([*run, str(MADE / "specimens")]).returncode)


main()
