"""The nine calls, and document 02's queue of writes, discard, export and import. Each takes a volume as bytes, changes nothing in
place and gives a Result.

A refused call gives everything back as it came; a refused format or mount, the blank drive; a
queue what the writes before the refused one left.
"""

from typing import NamedTuple

import keys
import tree
import xts
from answers import ACCEPTED, Answer, altered
from drive import (BLANK, CHANGING, MARK, NO_SECRET, STEADY, Drive, counter_test, first_tests,
                   seal_change, shape_and_length_test, state_in_limits)
from layout import EPOCH_TOP, HEAD, RECORD, Record, layout, read_record, shape_in_limits
from nuggets import (change, contents, path_answer, read_tests, rekey_tests, store_record, touched,
                     write_tests)
from primitives import le, number


class Report(NamedTuple):
    nuggets: int = 0
    moved: int = 0
    left: int = 0
    flakes: int = 0
    share: int = 0
    done: int = 0


class Result(NamedTuple):
    """`span` is where a stored flake begins and its length; `pads` the encipherings; `done` how
    many writes of a queue were done."""
    answer: Answer
    drive: Drive
    volume: bytes
    buffer: bytes = b""
    report: Report = Report()
    span: tuple = (0, 0)
    pads: tuple = ()
    done: int = 0


def share_of(nuggets, moved, flakes, done):
    """Document 02, Item 1, in hundredths of a percent, rounded down: `done` are the present flakes
    of moved nuggets. With no flake present nuggets count; while any is left at most 99.99."""
    share = done * 10000 // flakes if flakes else moved * 10000 // nuggets
    return min(share, 9999) if moved < nuggets else share


def format(volume, n, p, f, salt, secret, outside, version=1, cipher=0):
    if not shape_in_limits(n, p, f, version, cipher):
        return Result(Answer(1), BLANK, volume)
    lay = layout(n, p, f, version)
    bad = Answer(2) if len(volume) != lay.length else counter_test(outside)
    if bad:
        return Result(bad, BLANK, volume)
    work = bytearray(lay.length)
    work[lay.records:lay.tags] = Record(0, 0, 0, 1).stored(version) * n
    work[lay.tree:lay.flakes] = tree.build(work, lay)
    drive = seal_change(Drive(n, p, f, salt, epoch=1, counter=outside, present=secret,
                              version=version, cipher=cipher), work)
    return Result(ACCEPTED, drive, bytes(work))


def head_version(volume):
    return number(volume[3:5])


def head_state(volume):
    """Byte 5: the state, and the cipher above it."""
    return volume[5] % 16, volume[5] // 16 * 16


def head_shape_test(volume):
    """Mount's 2 under 104 bytes, 3, 1, 2. Only then may the shape be relied on."""
    if len(volume) < HEAD:
        return Answer(2)
    if volume[:3] != MARK or head_version(volume) not in RECORD:
        return Answer(3)
    n, p, f = number(volume[8:12]), number(volume[12:14]), number(volume[14:16])
    state, cipher = head_state(volume)
    if not (shape_in_limits(n, p, f, cipher=cipher) and state_in_limits(state, number(volume[6:8]))):
        return Answer(1)
    return Answer(2) if len(volume) != layout(n, p, f, head_version(volume)).length else None


def head_drive(volume, present, old):
    """The drive that a head of good shape describes."""
    n, p, f = number(volume[8:12]), number(volume[12:14]), number(volume[14:16])
    (state, cipher), epoch = head_state(volume), number(volume[6:8])
    leaving = epoch - 1 if state == CHANGING else 0
    kept = old if state == CHANGING else NO_SECRET
    version = head_version(volume)
    node1 = tree.node(volume, layout(n, p, f, version), 1)
    return Drive(n, p, f, volume[16:32], state, leaving, epoch, number(volume[32:40]),
                 node1, present, kept, version, cipher)


def mount_tests(drive, volume, outside):
    """4, 5, 6, 7 whole."""
    if volume[72:104] != keys.seal(drive.present, volume[:72], drive.node1):
        return Answer(4)
    check = keys.old_check(drive.old, drive.salt, drive.epoch) if drive.changing else bytes(32)
    if volume[40:72] != check:
        return Answer(5)
    if drive.counter != outside:
        return Answer(6)
    return altered(tree.whole_test(volume, drive.layout, drive.head))


def mount(volume, present, old, outside):
    bad = head_shape_test(volume)
    if bad:
        return Result(bad, BLANK, volume)
    drive = head_drive(volume, present, old)
    bad = mount_tests(drive, volume, outside)
    return Result(bad, BLANK, volume) if bad else Result(ACCEPTED, drive, volume)


def range_test(drive, offset, length):
    return Answer(8) if offset + length > drive.layout.contents else None


def read(drive, volume, offset, buffer):
    """Fills a buffer of the given buffer's length."""
    bad = first_tests(drive, volume) or range_test(drive, offset, len(buffer))
    if bad:
        return Result(bad, drive, volume, buffer)
    pieces = touched(drive.layout, offset, len(buffer))
    for n in pieces:
        bad = read_tests(volume, drive, n, [piece.flake for piece in pieces[n]])
        if bad:
            return Result(bad, drive, volume, buffer)
    parts = []
    for n in pieces:
        for piece in pieces[n]:
            text = contents(volume, drive, n, piece.flake)
            parts.append(text[piece.start:piece.start + piece.length])
    return Result(ACCEPTED, drive, volume, b"".join(parts))


def write(drive, volume, offset, data):
    bad = first_tests(drive, volume) or range_test(drive, offset, len(data))
    if not bad and not data:
        return Result(ACCEPTED, drive, volume)
    bad = bad or counter_test(drive.counter)
    if bad:
        return Result(bad, drive, volume)
    pieces = touched(drive.layout, offset, len(data))
    for n in pieces:
        bad = write_tests(volume, drive, n, [piece.flake for piece in pieces[n]])
        if bad:
            return Result(bad, drive, volume)
    work = bytearray(volume)
    pads = []
    for n in pieces:
        pads += change(work, drive, n, pieces[n], data)
    after = seal_change(drive, work)
    return Result(ACCEPTED, after, bytes(work), pads=tuple(pads))


def request_bytes(requests):
    """A list of requests as bytes: 16 each, offset and length."""
    return b"".join(le(offset, 8) + le(length, 8) for offset, length in requests)


def requests_in(image):
    return [(number(image[at:at + 8]), number(image[at + 8:at + 16]))
            for at in range(0, len(image), 16)]


def queue_tests(drive, volume, image, data):
    """1, 2, then 8 for a list that ends within a request or lengths that don't add up."""
    bad = shape_and_length_test(drive, volume)
    if not bad and (len(image) % 16
                    or sum(length for _, length in requests_in(image)) != len(data)):
        bad = Answer(8)
    return bad


def queue(drive, volume, image, data):
    """The writes one after another, each of the next part of the data, up to the first refusal."""
    bad = queue_tests(drive, volume, image, data)
    if bad:
        return Result(bad, drive, volume)
    at, pads = 0, ()
    for done, (offset, length) in enumerate(requests_in(image)):
        got = write(drive, volume, offset, data[at:at + length])
        if got.answer.number:
            return Result(got.answer, drive, volume, pads=pads, done=done)
        drive, volume, at, pads = got.drive, got.volume, at + length, pads + got.pads
    return Result(ACCEPTED, drive, volume, pads=pads, done=len(image) // 16)


def hand_tests(drive, volume, data, tweak, length):
    """Document 02, Item 12: 1, 2, 7 head, 2 for contents or a buffer that don't fit, 10 for one key twice."""
    bad = first_tests(drive, volume)
    if bad:
        return bad
    whole = drive.layout.contents
    if whole % xts.SECTOR or length != whole:
        return Answer(2)
    return Answer(10) if data == tweak else None


def export(drive, volume, data, tweak, buffer):
    """The contents as sectors under two keys, in a buffer of the given buffer's length."""
    bad = hand_tests(drive, volume, data, tweak, len(buffer))
    if bad:
        return Result(bad, drive, volume, buffer)
    got = read(drive, volume, 0, buffer)
    return got if got.answer.number else got._replace(buffer=xts.encrypted(data, tweak, got.buffer))


def take_in(drive, volume, data, tweak, buffer):
    """Import: such a buffer decrypted and written whole at offset 0."""
    bad = hand_tests(drive, volume, data, tweak, len(buffer))
    return Result(bad, drive, volume) if bad else write(drive, volume, 0, xts.decrypted(data, tweak, buffer))


def begin_tests(drive, secret):
    """9, 10, 15, 13."""
    if drive.changing:
        return Answer(9)
    if secret == drive.present:
        return Answer(10)
    if drive.epoch == EPOCH_TOP:
        return Answer(15)
    return counter_test(drive.counter)


def begin(drive, volume, secret):
    bad = first_tests(drive, volume) or begin_tests(drive, secret)
    if bad:
        return Result(bad, drive, volume)
    work = bytearray(volume)
    after = seal_change(drive._replace(state=CHANGING, leaving=drive.epoch, epoch=drive.epoch + 1,
                                       present=secret, old=drive.present), work)
    return Result(ACCEPTED, after, bytes(work))


def sweep_tests(drive, volume, nugget):
    """9, 8, 7 path, 12, 13, 7 flakes."""
    if not drive.changing:
        return Answer(9)
    if nugget >= drive.n:
        return Answer(8)
    bad = path_answer(volume, drive, nugget)
    if bad:
        return bad
    if read_record(volume, drive.layout, nugget).epoch == drive.epoch:
        return Answer(12)
    return counter_test(drive.counter) or rekey_tests(volume, drive, nugget)


def sweep(drive, volume, nugget):
    bad = first_tests(drive, volume) or sweep_tests(drive, volume, nugget)
    if bad:
        return Result(bad, drive, volume)
    work = bytearray(volume)
    pads = change(work, drive, nugget, [], b"")
    after = seal_change(drive, work)
    return Result(ACCEPTED, after, bytes(work), pads=tuple(pads))


def discard_tests(drive, volume, nugget, first, count):
    """9 on version 1, 8, 7 path."""
    if drive.version == 1:
        return Answer(9)
    if nugget >= drive.n or first + count > drive.p:
        return Answer(8)
    return path_answer(volume, drive, nugget)


def discard(drive, volume, nugget, first, count):
    """Clears held bits. Where nothing is cleared all stays as it is; else 13."""
    bad = first_tests(drive, volume) or discard_tests(drive, volume, nugget, first, count)
    if bad:
        return Result(bad, drive, volume)
    record = read_record(volume, drive.layout, nugget)
    freed = (1 << count) - 1 << first
    if not record.held & freed:
        return Result(ACCEPTED, drive, volume)
    bad = counter_test(drive.counter)
    if bad:
        return Result(bad, drive, volume)
    work = bytearray(volume)
    store_record(work, drive.layout, nugget, record._replace(held=record.held & ~freed))
    after = seal_change(drive, work)
    return Result(ACCEPTED, after, bytes(work))


def count(drive, volume):
    """The report's values, read from the records."""
    records = [read_record(volume, drive.layout, n) for n in range(drive.n)]
    behind = [record for record in records if record.epoch != drive.epoch]
    moved = drive.n - len(behind)
    flakes = sum(len(record.present()) for record in records)
    done = flakes - sum(len(record.present()) for record in behind)
    return Report(drive.n, moved, len(behind), flakes, share_of(drive.n, moved, flakes, done), done)


def whole_answer(drive, volume):
    return altered(tree.whole_test(volume, drive.layout, drive.head))


def finish_tests(drive, volume):
    """9, 7 whole, 11, 13."""
    if not drive.changing:
        return Answer(9)
    bad = whole_answer(drive, volume)
    if bad:
        return bad
    left = count(drive, volume).left
    return Answer(11, left=left) if left else counter_test(drive.counter)


def finish(drive, volume):
    bad = first_tests(drive, volume) or finish_tests(drive, volume)
    if bad:
        return Result(bad, drive, volume)
    work = bytearray(volume)
    after = seal_change(drive._replace(state=STEADY), work)
    return Result(ACCEPTED, after, bytes(work))


def report(drive, volume):
    bad = first_tests(drive, volume) or whole_answer(drive, volume)
    if bad:
        return Result(bad, drive, volume)
    return Result(ACCEPTED, drive, volume, report=count(drive, volume))


def stored_flake(drive, volume, nugget, flake):
    """No head test and no tag: the span of the stored bytes within the volume."""
    bad = shape_and_length_test(drive, volume)
    if not bad and (nugget >= drive.n or flake >= drive.p):
        bad = Answer(8)
    if bad:
        return Result(bad, drive, volume)
    return Result(ACCEPTED, drive, volume, span=(drive.layout.flake_at(nugget, flake), drive.f))
