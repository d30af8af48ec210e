"""Moves between versions through the C interface: the proved library beside the second program, equal to the byte.

From the volumes that histories leave, steady and changing: up, down, up again, with anything in the second buffer and in the
places that aren't held; discarded flakes; damaged volumes and wild drives; and all that the second program's own checks make
(each fault alone and in pairs). NGT_SEED sets the seed.
"""
import random
import sys

from beside import Beside
from proved import SEED, Tally, library

import checks.tally
import moving
from checks import garbage, histories, moves
from checks.make import flipped
from layout import RECORD, layout, shape_in_limits

HISTORIES, WILD = 160, 200


def lengths(drive):
    """Those of both versions; of a drive out of limits, or one too large to try, any."""
    if not shape_in_limits(drive.n, drive.p, drive.f) or drive.n * drive.p * drive.f > 1 << 20:
        return [0, 862]
    return [layout(drive.n, drive.p, drive.f, version).length for version in RECORD]


def moved(source, drive, volume):
    """Both ways into buffers of both lengths and of others, and on from what an accepted move left."""
    for _ in range(3):
        taken = None
        for call in (moving.up, moving.down):
            for length in (*lengths(drive), source.choice((0, 103, len(volume), len(volume) + 1))):
                got = call(drive, volume, source.randbytes(length))
                taken = taken if got.answer.number else (got.drive, got.buffer)
        if not taken:
            return
        drive, volume = taken


def lived(own, i):
    """The volumes of a history, one in a while."""
    chance = random.Random(f"{SEED} moves {i}")
    history = (histories.near_tops if i % 4 == 3 else histories.fresh)(own, chance, f"moved {i}")
    for _ in range(4):
        for _ in range(chance.randrange(10)):
            histories.step(chance, history)
        moved(chance, history.drive, history.volume)
    moved(chance, history.drive, flipped(history.volume, chance.randrange(len(history.volume)), chance.randrange(8)))


def main():
    tally, own = Tally(), checks.tally.Tally(str(SEED))
    both = Beside(library("ngt"), tally)
    for i in range(HISTORIES):
        lived(own, i)
    for i in range(WILD):
        source = random.Random(f"{SEED} wild moves {i}")
        moved(source, *(garbage.sealed if i % 2 else garbage.wild)(source))
    moves.run(own)
    for words in own.failures:
        tally.same("the second program", words, False, True)
    met = {number for name, number, _ in both.met if name in ("up", "down")}
    tally.same("every answer is met", "numbers", sorted(met), [0, 1, 2, 7, 9, 13, 16])
    return tally.close()


if __name__ == "__main__":
    sys.exit(main())
