"""Two volumes against one drive, through the C interface: the proved library beside the second program, equal to the byte.

The cases are those of the second program's own checks. No pair of volumes makes the library find two messages, since that
would break BLAKE2s; the second program meets that branch under a hash cut to one byte (second/checks/twins.py).
"""
import ctypes
import random
import struct
import sys

from beside import given_image
from proved import SEED, Tally, left, library, room

from checks import twins as cases
from twins import twins

U32, SIZE = ctypes.c_uint32, ctypes.c_size_t


def beside(proved, tally, source, drive, first, second, nugget):
    want = twins(drive, first, second, nugget)
    image, one, two = given_image(drive), source.randbytes(1055), source.randbytes(1055)
    given = [room(part) for part in (image, first, second, one, two)]
    length, answer = room(size=4), room(size=16)
    d, v, w, *pair = given
    said = proved.ngt_twins(d, v, SIZE(len(first)), w, SIZE(len(second)), U32(nugget), *pair, length, answer)
    got = said, left(answer), left(length), *(left(part) for part in given)
    stored = (image, first, second, want.one + one[len(want.one):], want.two + two[len(want.two):])
    tally.same("twins", (drive, nugget), got, (want.answer.number, want.answer.image(), struct.pack("<I", len(want.one)), *stored), len(first) + len(second))


def main():
    tally, proved = Tally(), library("ngt")
    source = random.Random(f"{SEED} twins")
    for i in range(4):
        for case in cases.cases(random.Random(f"{SEED} twins {i}")):
            beside(proved, tally, source, *case)
    return tally.close()


if __name__ == "__main__":
    sys.exit(main())
