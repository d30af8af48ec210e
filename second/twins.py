"""Document 02, Item 10: what a passing path excludes.

Two volumes against one drive. Where both pass the path of a nugget under the drive's node 1 and
differ in its record bytes or tags, the lowest node of the path that both have alike was made of
two different messages.
"""

from typing import NamedTuple

import tree
from answers import ACCEPTED, NODE, Answer, Place
from drive import shape_and_length_test
from layout import TAG
from nuggets import path_answer
from primitives import le


class Found(NamedTuple):
    """`one` and `two` are empty where the call is refused or record and tags agree."""
    answer: Answer
    one: bytes = b""
    two: bytes = b""


def path_to(drive, volume, n):
    """7 path, judged by the drive's head; last node 1 against the drive's."""
    bad = path_answer(volume, drive, n)
    if not bad and tree.node(volume, drive.layout, 1) != drive.node1:
        bad = Answer(7, Place(NODE, 1))
    return bad


def tests(drive, first, second, n):
    """1, 2, 8, then the paths."""
    bad = shape_and_length_test(drive, first) or shape_and_length_test(drive, second)
    if not bad and n >= drive.n:
        bad = Answer(8)
    return bad or path_to(drive, first, n) or path_to(drive, second, n)


def kept(volume, lay, n):
    """Record bytes and tags of a nugget."""
    at, tags = lay.record_at(n), lay.tag_at(n, 0)
    return bytes(volume[at:at + lay.record] + volume[tags:tags + TAG * lay.p])


def message(volume, lay, i):
    """What is hashed for node i, a nugget's leaf or a node above one."""
    if i >= lay.leaves:
        return b"L" + le(i - lay.leaves, 4) + kept(volume, lay, i - lay.leaves)
    return b"T" + tree.node(volume, lay, 2 * i) + tree.node(volume, lay, 2 * i + 1)


def twins(drive, first, second, n):
    bad = tests(drive, first, second, n)
    if bad:
        return Found(bad)
    lay = drive.layout
    if kept(first, lay, n) == kept(second, lay, n):
        return Found(ACCEPTED)
    path = [lay.leaves + n >> up for up in range(lay.leaves.bit_length())]
    met = next(i for i in path if tree.node(first, lay, i) == tree.node(second, lay, i))
    return Found(ACCEPTED, message(first, lay, met), message(second, lay, met))
