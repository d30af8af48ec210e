"""Inputs of the programs that read secrets, counter and volume, and the comparison of a built one with the second program.

NGT_SEED sets the seed; a failure prints it with the case.
"""
import os
import pathlib
import random
import subprocess
import sys

ROOT = pathlib.Path(__file__).resolve().parent.parent
sys.path.insert(0, str(ROOT / "second"))
import sample  # noqa: E402
import sheet  # noqa: E402
from layout import layout  # noqa: E402

# Every answer that a mount can give.
REFUSALS = [f"refused={number} ".encode() for number in range(1, 8)]
SEED = int(os.environ.get("NGT_SEED", "1"))


def flipped(data, byte, bit):
    changed = bytearray(data)
    changed[byte] ^= 1 << bit
    return bytes(changed)


def around_the_sample(source, volume_flips):
    """The sample, every length that decides, and one flipped bit in each byte before the records and in some behind them. Of the
    sample in version 2 the same, but for the secrets and the counter."""
    good, other = sample.sample(1), sample.sample(2)
    yield "the sample", good
    yield "the sample in version 2", other
    for n in (175, 176, 177, len(good), len(other) - 1):
        yield f"{n} bytes of version 2", other[:n]
    for n in (0, 1, 71, 72, 73, 175, 176, 177, len(good) - 1, sheet.MOST - 1, sheet.MOST, sheet.MOST + 1):
        yield f"{n} bytes", (good + bytes(sheet.MOST + 1))[:n]
    for n in (sheet.MOST - 1, sheet.MOST, sheet.MOST + 1, sheet.MOST + 2):
        yield f"{n} zero bytes", bytes(n)
    for byte in range(72):
        yield f"byte {byte} of the secrets and the counter", flipped(good, byte, source.randrange(8))
    for version, whole in ((1, good), (2, other)):
        for byte in range(104):
            yield f"byte {byte} of the head, version {version}", flipped(whole, 72 + byte, source.randrange(8))
        for byte in source.sample(range(104, layout(3, 2, 64, version).length), volume_flips):
            yield f"byte {byte} of the volume, version {version}", flipped(whole, 72 + byte, source.randrange(8))


def compare(program, second, cases, shown, passed=0):
    """Runs the built program and the second one on each case; the last line counts, with what passed before. Each of the words
    shown has to come up."""
    failed = 0
    missing = set(shown)
    for name, data in cases(random.Random(SEED)):
        ran = subprocess.run([ROOT / "tests/run_built.sh", program], input=data, capture_output=True)
        wanted = second(data)
        missing -= {words for words in missing if words in wanted}
        if ran.returncode == 0 and ran.stdout == wanted:
            passed += 1
        else:
            failed += 1
            print(f"seed {SEED}, {name}: {ran.stdout!r} {ran.stderr!r}, and not {wanted!r}")
    for words in sorted(missing):
        failed += 1
        print(f"seed {SEED}: no case shows {words!r}")
    print(f"{passed} passed, {failed} failed")
    sys.exit(1 if failed else 0)
