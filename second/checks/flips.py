"""One flipped bit in every byte of small volumes: mount, report and reads must see it."""

import random

import calls
from answers import FLAKE, HEAD, NODE, RECORD, Answer, Place
from drive import BLANK

from checks.make import OLD, PRESENT, Spec, flipped, full, made, power, width

BOTH = [
    Spec(3, 2, 64, 0, 3, 9, [[4, 3, 3], [7, 2, 3], [0, 0, 3]]),
    Spec(3, 2, 64, 1, 3, 9, [[4, 3, 2], [7, 1, 3], [0, 2, 2]]),
    Spec(1, 1, 64, 0, 1, 2**63, [[1, 1, 1]]),
    Spec(5, 3, 128, 1, 2, 2**63, [[0, 5, 1], [1, 7, 2], [0, 0, 1], [2**63, 4, 2], [3, 1, 1]]),
]
# And one where some spent flakes aren't held.
VOLUMES = BOTH + [spec._replace(version=2) for spec in BOTH]
VOLUMES.append(Spec(3, 2, 64, 1, 3, 9, [[4, 3, 1, 2], [7, 1, 1, 3], [0, 3, 0, 2]], version=2))
# And both ciphers.
VOLUMES += [VOLUMES[1]._replace(cipher=16), VOLUMES[-1]._replace(cipher=16)]


def head_answer(volume, at):
    """What mount must say to a flipped bit at a byte of the head."""
    if at < 5 and volume[3:5] not in (b"\1\0", b"\2\0") or at < 3:
        return Answer(3)
    if at >= 16:
        return Answer(4)
    kind, epoch = volume[5], int.from_bytes(volume[6:8], "little")
    shape = [int.from_bytes(volume[a:b], "little") for a, b in ((8, 12), (12, 14), (14, 16))]
    good = (kind in (0, 1, 16, 17) and epoch >= 1 + kind % 16 and 1 <= shape[0] <= 16384
            and 1 <= shape[1] <= 64 and shape[2] in range(64, 4097, 64))
    if not good:
        return Answer(1)
    # One flipped bit of N, P or F always gives a shape of another length.
    return Answer(4) if at < 8 else Answer(2)


def tree_answer(spec, node):
    if node == 1:
        return Answer(4)
    nugget = node - power(spec.n)
    if 0 <= nugget < spec.n:
        return Answer(7, Place(RECORD, nugget))
    return Answer(7, Place(NODE, node))


def mount_answer(spec, volume, at):
    """What mount must say, and the flake whose read must be refused, by the byte's part."""
    wide = width(spec.version)
    tags = 104 + wide * spec.n
    tree = tags + 16 * spec.n * spec.p
    flakes = tree + 32 * (2 * power(spec.n) - 1)
    if at < 104:
        return head_answer(volume, at), None
    if at < tags:
        return Answer(7, Place(RECORD, (at - 104) // wide)), None
    if at < tree:
        return Answer(7, Place(RECORD, (at - tags) // (16 * spec.p))), None
    if at < flakes:
        return tree_answer(spec, (at - tree) // 32 + 1), None
    return Answer(0), divmod((at - flakes) // spec.f, spec.p)


def drive_answer(answer, at):
    """A call on the drive finds a bad head, or node 1, with 7 head."""
    return answer if at >= 104 and answer.number in (0, 7) else Answer(7, Place(HEAD))


def flake_read(tally, words, spec, drive, volume, nugget, flake):
    offset = (nugget * spec.p + flake) * spec.f
    got = calls.read(drive, volume, offset + 5, b"?" * 3)
    if full(spec.records[nugget])[2] >> flake & 1:
        want = Answer(7, Place(FLAKE, nugget, flake)), b"???"
    else:
        want = Answer(0), bytes(3)
    tally.same(words + " then read", (got.answer, got.buffer), want)


def one_flip(tally, spec, drive, good, at, bit):
    volume = flipped(good, at, bit)
    words = f"bit {bit} of byte {at} of {spec.n} {spec.p} {spec.f} state {spec.state}"
    want, flake = mount_answer(spec, volume, at)
    got = calls.mount(volume, PRESENT, OLD, spec.counter)
    after = drive if want.number == 0 else BLANK
    tally.same(words, (got.answer, got.drive, got.volume), (want, after, volume))
    told = calls.report(drive, volume)
    tally.same(words + " in report", (told.answer, told.drive), (drive_answer(want, at), drive))
    if flake:
        flake_read(tally, words, spec, drive, volume, *flake)


def run(tally):
    chance = random.Random(f"flips {tally.seed}")
    for spec in VOLUMES:
        drive, good = made(spec)
        got = calls.mount(good, PRESENT, OLD, spec.counter)
        tally.same("unflipped", (got.answer.number, got.drive), (0, drive))
        for at in range(len(good)):
            bits = range(8) if at < 104 or spec.n == 1 else [chance.randrange(8)]
            for bit in bits:
                one_flip(tally, spec, drive, good, at, bit)
