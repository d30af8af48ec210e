"""The open drive, the head it makes, and the tests that calls on a drive start with."""

from typing import NamedTuple

import keys
import tree
from answers import HEAD as HEAD_PLACE
from answers import Answer, Place
from layout import EPOCH_TOP, HEAD, TOP, layout, shape_in_limits
from primitives import le, number

MARK = b"NGT"
STEADY, CHANGING = 0, 1
NO_SECRET = bytes(32)


class Drive(NamedTuple):
    """`state` is a byte, so that a garbage state can be given; `leaving` is the epoch
    being left, which only a changing drive carries."""
    n: int = 0
    p: int = 0
    f: int = 0
    salt: bytes = bytes(16)
    state: int = STEADY
    leaving: int = 0
    epoch: int = 0
    counter: int = 0
    node1: bytes = bytes(32)
    present: bytes = NO_SECRET
    old: bytes = NO_SECRET
    version: int = 0
    cipher: int = 0

    @property
    def changing(self):
        return self.state == CHANGING

    @property
    def head(self):
        """What a record is held against: epoch, whether changing, and counter."""
        return self.epoch, self.changing, self.counter

    @property
    def layout(self):
        return layout(self.n, self.p, self.f, self.version)

    def image(self):
        """The 144 bytes of the C interface."""
        return (le(self.n, 4) + le(self.p, 4) + le(self.f, 4) + le(self.state, 1) + le(self.cipher, 1)
                + le(self.epoch, 2) + le(self.leaving, 2) + le(self.version, 2) + bytes(4) + self.salt
                + le(self.counter, 8) + self.node1 + self.present + self.old)


BLANK = Drive()


def drive_of_image(image):
    return Drive(number(image[0:4]), number(image[4:8]), number(image[8:12]), image[24:40],
                 image[12], number(image[16:18]), number(image[14:16]), number(image[40:48]),
                 image[48:80], image[80:112], image[112:144], number(image[18:20]), image[13])


def state_in_limits(state, epoch):
    lowest = {STEADY: 1, CHANGING: 2}.get(state)
    return lowest is not None and lowest <= epoch <= EPOCH_TOP


def in_limits(drive):
    """Test 1 of a drive."""
    if not shape_in_limits(drive.n, drive.p, drive.f, drive.version, drive.cipher):
        return False
    if not state_in_limits(drive.state, drive.epoch):
        return False
    return drive.state == STEADY or drive.leaving == drive.epoch - 1


def head_front(drive):
    """Head bytes 0 to 71; in byte 5 the cipher stands above the state."""
    check = keys.old_check(drive.old, drive.salt, drive.epoch) if drive.changing else bytes(32)
    return (MARK + le(drive.version, 2) + le(drive.state + drive.cipher, 1) + le(drive.epoch, 2)
            + le(drive.n, 4) + le(drive.p, 2) + le(drive.f, 2) + drive.salt + le(drive.counter, 8) + check)


def head_bytes(drive):
    """The 104 head bytes that a drive makes."""
    front = head_front(drive)
    return front + keys.seal(drive.present, front, drive.node1)


def shape_and_length_test(drive, volume):
    if not in_limits(drive):
        return Answer(1)
    return None if len(volume) == drive.layout.length else Answer(2)


def head_test(drive, volume):
    """One test with two halves, both with the place head."""
    if volume[:HEAD] == head_bytes(drive) and tree.node(volume, drive.layout, 1) == drive.node1:
        return None
    return Answer(7, Place(HEAD_PLACE))


def first_tests(drive, volume):
    """1, 2, 7 head."""
    return shape_and_length_test(drive, volume) or head_test(drive, volume)


def counter_test(counter):
    return Answer(13) if counter == TOP else None


def seal_change(drive, work):
    """Counter plus 1, node 1 taken over, the head renewed. Returns the drive afterwards."""
    drive = drive._replace(counter=drive.counter + 1, node1=tree.node(work, drive.layout, 1))
    if drive.state == STEADY:
        drive = drive._replace(leaving=0, old=NO_SECRET)
    work[:HEAD] = head_bytes(drive)
    return drive
