"""Histories of 40 calls, each call made of the proved library and of the second program, all equal to the byte.

They are the second program's own: clean ones, held against demands 2 and 3 after every call; ones that begin near the tops
of the numbers; hostile ones; of either version. At the end every answer that a call can give, with every kind of place, must have
been met, and every kind of discard.
NGT_SEED sets the seed.
"""
import collections
import concurrent.futures
import multiprocessing
import sys

from beside import Beside
from proved import SEED, Tally, library

import checks.tally
from answers import NOWHERE, Place
from checks import garbage, histories
from checks.model import FREEING

HISTORIES, PIECE, LEAST = 1600, 40, 5
COMPARED = {}


def start(path):
    COMPARED["with"] = Beside(path, Tally())


def piece(first):
    """Some histories: what was compared, what was met, and where the second program misses its own demands."""
    beside, own = COMPARED["with"], checks.tally.Tally(str(SEED))
    beside.tally, beside.met = Tally(), collections.Counter()
    for i in range(first, first + PIECE):
        beside.met.update(histories.one(own, i) & FREEING)
    return beside.tally, beside.met, own.failures


def wanted():
    """Each call with each number and each kind of place that it can give."""
    for name in garbage.POSSIBLE:
        for number in sorted(garbage.POSSIBLE[name]):
            for kind in sorted(garbage.PLACES[name]) if number == 7 else [NOWHERE]:
                yield name, number, kind


def told(name, met):
    """How often a call was answered what."""
    said = [f"{number} {Place(kind).words().rstrip(' 0123456789')}".rstrip() + f" x {times}"
            for (one, number, kind), times in sorted((words, met[words]) for words in met if words not in FREEING) if one == name]
    return f"{name}: " + ", ".join(said)


def main():
    proved, tally, met = library("ngt"), Tally(), collections.Counter()
    print(f"NGT_SEED={SEED}, {HISTORIES} histories of {histories.STEPS} calls")
    fork = multiprocessing.get_context("fork")
    with concurrent.futures.ProcessPoolExecutor(2, fork, start, (proved,)) as pool:
        for part, counted, missed in pool.map(piece, range(0, HISTORIES, PIECE)):
            tally.join(part)
            met += counted
            for words in missed:
                tally.same("the second program", words, False, True)
    for name in garbage.POSSIBLE:
        print(told(name, met))
    print("histories with a discard of each kind: " + ", ".join(f"{kind} x {met[kind]}" for kind in sorted(FREEING)))
    for kind in (*wanted(), *sorted(FREEING)):
        tally.same("how often was met", kind, met[kind] >= LEAST, True)
    return tally.close()


if __name__ == "__main__":
    sys.exit(main())
