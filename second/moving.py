"""Document 02, Item 6: a volume moved to another version, into a second buffer.

Each move gives a Result whose `buffer` is the second one. A refused move gives drive and buffer back as they came; the given
volume is only read, and an accepted move's drive belongs to the buffer.
"""

import keys
import tree
from answers import ACCEPTED, Answer, altered
from calls import Result, whole_answer
from drive import counter_test, head_test, seal_change, shape_and_length_test
from layout import TAG, layout, read_record
from nuggets import flakes_test, key_of, stored_bytes


def room_test(drive, volume, length, enter):
    """1, 2; then 2 for the second buffer, whose length is that of the version to enter."""
    bad = shape_and_length_test(drive, volume)
    if not bad and length != layout(drive.n, drive.p, drive.f, enter).length:
        bad = Answer(2)
    return bad


def held_test(drive, volume):
    """Every flake that is held, nugget by nugget."""
    for n in range(drive.n):
        bad = altered(flakes_test(volume, drive, n, read_record(volume, drive.layout, n).present()))
        if bad:
            return bad
    return None


def spent_test(drive, volume):
    """16 for the lowest nugget with a spent flake that isn't held."""
    for n in range(drive.n):
        record = read_record(volume, drive.layout, n)
        if record.spent & ~record.held:
            return Answer(16, nugget=n)
    return None


def move_tests(drive, volume, length, leave, enter):
    """1, 2, 7 head, 9, 7 whole, 7 flakes, 16 when moving down, 13."""
    bad = room_test(drive, volume, length, enter) or head_test(drive, volume)
    if not bad and drive.version != leave:
        bad = Answer(9)
    bad = bad or whole_answer(drive, volume) or held_test(drive, volume)
    if not bad and enter < leave:
        bad = spent_test(drive, volume)
    return bad or counter_test(drive.counter)


def carried(drive, volume, after):
    """The second buffer but for its head: a held flake's tag is made under the version to enter, an absent one's copied."""
    lay, entered = drive.layout, after.layout
    work = bytearray(entered.length)
    for n in range(drive.n):
        record = read_record(volume, lay, n)
        work[entered.record_at(n):entered.record_at(n + 1)] = record.stored(after.version)
        for f in range(drive.p):
            stored = stored_bytes(volume, lay, n, f)
            tag = volume[lay.tag_at(n, f):lay.tag_at(n, f) + TAG]
            if record.held >> f & 1:
                tag = keys.tag(after.version, key_of(after, record, n), n, record.keycount, f, stored)
            work[entered.flake_at(n, f):entered.flake_at(n, f) + lay.f] = stored
            work[entered.tag_at(n, f):entered.tag_at(n, f) + TAG] = tag
    work[entered.tree:entered.flakes] = tree.build(work, entered)
    return work


def move(drive, volume, second, leave, enter):
    bad = move_tests(drive, volume, len(second), leave, enter)
    if bad:
        return Result(bad, drive, volume, second)
    after = drive._replace(version=enter)
    work = carried(drive, volume, after)
    return Result(ACCEPTED, seal_change(after, work), volume, bytes(work))


def up(drive, volume, second):
    return move(drive, volume, second, 1, 2)


def down(drive, volume, second):
    return move(drive, volume, second, 2, 1)
