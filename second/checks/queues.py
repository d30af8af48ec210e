"""Document 02, Item 2: a queue is its writes one after another, up to the first refusal."""

import random

import calls
from answers import FLAKE, HEAD, RECORD, Answer
from drive import BLANK
from layout import TOP, layout

from checks.make import Spec, flipped, made
from checks.refusals import LAY, MIXED, MOVED, at7

ROUNDS = 300


def singly(drive, volume, requests, data):
    """The writes one after another, made by the caller."""
    at, done, pads = 0, 0, ()
    for offset, length in requests:
        got = calls.write(drive, volume, offset, data[at:at + length])
        if got.answer.number:
            return calls.Result(got.answer, drive, volume, pads=pads, done=done)
        drive, volume, at = got.drive, got.volume, at + length
        done, pads = done + 1, pads + got.pads
    return calls.Result(calls.ACCEPTED, drive, volume, pads=pads, done=done)


def queued(drive, volume, requests, data):
    return calls.queue(drive, volume, calls.request_bytes(requests), data)


def beside_writes(tally, chance):
    """0 to 8 requests, some empty, some past the end, on sound and on damaged volumes."""
    for i in range(ROUNDS):
        changing = chance.randrange(2)
        counter = chance.choice((9, 9, TOP - 2))
        drive, volume = made(Spec(3, 2, 64, changing, 3, counter, MIXED if changing else MOVED, version=chance.choice((1, 2)),
                                  cipher=chance.choice((0, 16))))
        if drive.version == 2 and chance.randrange(2):
            drive, volume = calls.discard(drive, volume, chance.randrange(3), chance.randrange(2), 1)[1:3]
        if chance.random() < 0.3:
            volume = flipped(volume, chance.randrange(len(volume)), chance.randrange(8))
        requests = [(chance.randrange(LAY.contents), chance.choice((0, 1, 17, 64, 100)))
                    for _ in range(i % 9)]
        data = chance.randbytes(sum(length for _, length in requests))
        tally.same(f"queue {i} and its writes", queued(drive, volume, requests, data),
                   singly(drive, volume, requests, data))


def sums(tally, version):
    """Lengths that don't add up to the data: 8 with nothing done, also where a sum of 64 bits
    would roll over to the right one."""
    drive, volume = made(Spec(3, 2, 64, 0, 3, 9, MOVED, version=version))
    data = b"!" * 10
    off = calls.Result(Answer(8), drive, volume)
    for lengths in ((9,), (11,), (4, 5), (5, 6), (10, 1), (0,), (), (TOP, 11), (11, TOP),
                    (TOP, 1, 10), (2**63, 2**63, 10), (TOP, TOP, 12)):
        requests = [(0, length) for length in lengths]
        tally.same(f"lengths {lengths}", queued(drive, volume, requests, data), off)
    for lengths in ((10,), (4, 6), (0, 10), (10, 0), (0, 0, 3, 0, 7, 0)):
        got = queued(drive, volume, [(64, length) for length in lengths], data)
        tally.same(f"lengths {lengths}", (got.answer, got.done), (Answer(0), len(lengths)))
    for size in range(1, 16):
        image = calls.request_bytes([(0, 10)]) + bytes(size)
        tally.same(f"{size} bytes too many", calls.queue(drive, volume, image, data), off)
        tally.same(f"only {size} bytes", calls.queue(drive, volume, image[:size], data), off)


def empty_ones(tally, version):
    """No request at all isn't held against the head; one of no bytes is, and counts as done."""
    drive, volume = made(Spec(3, 2, 64, 0, 3, TOP, MOVED, version=version))
    wrong = flipped(volume, 20)
    for stands in (volume, wrong):
        tally.same("an empty list", queued(drive, stands, [], b""),
                   calls.Result(Answer(0), drive, stands))
    tally.same("an empty request under a wrong head", queued(drive, wrong, [(0, 0)], b""),
               calls.Result(at7(HEAD), drive, wrong))
    tally.same("empty requests at the top", queued(drive, volume, [(0, 0), (384, 0)], b""),
               calls.Result(Answer(0), drive, volume, done=2))
    tally.same("an empty request past the end", queued(drive, volume, [(0, 0), (385, 0)], b""),
               calls.Result(Answer(8), drive, volume, done=1))
    for given, want in ((BLANK, Answer(1)), (drive, Answer(2))):
        got = queued(given, volume + b"\0", [(0, 1)], b"")
        tally.same("1 and 2 before 8", got, calls.Result(want, given, volume + b"\0"))


def stopped(tally, version):
    """A refusal in the middle: what comes before it stays, what comes behind it isn't done."""
    lay = layout(3, 2, 64, version)
    for name, answer, at in (("record 1", at7(RECORD, 1), lay.record_at(1)),
                             ("flake 1 0", at7(FLAKE, 1, 0), lay.flake_at(1, 0))):
        drive, volume = made(Spec(3, 2, 64, 0, 3, 9, [[1, 0, 3], [1, 1, 3], [1, 0, 3]], version=version))
        bad = flipped(volume, at)
        got = queued(drive, bad, [(0, 64), (128, 64), (256, 64)], b"!" * 192)
        one = calls.write(drive, bad, 0, b"!" * 64)
        tally.same(f"a damaged {name}", got,
                   calls.Result(answer, one.drive, one.volume, pads=one.pads, done=1))
    drive, volume = made(Spec(3, 2, 64, 0, 3, TOP - 2, MOVED, version=version))
    got = queued(drive, volume, [(0, 1), (64, 0), (70, 1), (0, 1)], b"abc")
    tally.same("the counter's top", (got.answer, got.done, got.drive.counter), (Answer(13), 3, TOP))
    got = queued(drive, volume, [(0, 1), (384, 1), (0, 1)], b"abc")
    tally.same("past the end", (got.answer, got.done, got.drive.counter), (Answer(8), 1, TOP - 1))


def run(tally):
    beside_writes(tally, random.Random(f"queues {tally.seed}"))
    for version in (1, 2):
        sums(tally, version)
        empty_ones(tally, version)
        stopped(tally, version)
