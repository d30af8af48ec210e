"""One history of calls, held against the three demands after every call."""

import calls
from drive import BLANK

from checks.ledger import Ledger, ones, records_in
from checks.make import flipped, made
from checks.model import Model


class History:
    def __init__(self, tally, words, spec):
        self.tally, self.words = tally, words
        self.model, self.ledger = Model(spec), Ledger(tally, words, spec)
        self.drive, self.volume = made(spec)
        self.secrets = [spec.present, spec.old, bytes(32)]
        self.images, self.met = [], set()

    def same(self, what, got, want):
        self.tally.same(f"{self.words}: {what}", got, want)

    def change(self, name, *values):
        """A changing call on the drive and volume as last left. The model never gives 1 to 7:
        there is no false alarm."""
        want, pads = getattr(self.model, name)(*values)
        got = getattr(calls, name)(self.drive, self.volume, *values)
        self.met.add(want)
        self.same(f"{name} answer", got.answer.number, want)
        self.same(f"{name} pads", [pad[:3] for pad in got.pads], pads)
        if want == 11:
            self.same("how many left", got.answer.left, self.model.left())
        idle = name == "write" and not values[1] or name == "discard" and self.model.counter == self.drive.counter
        if want or idle:
            self.same(f"{name} leaves all", (got.drive, got.volume), (self.drive, self.volume))
            return got
        self.images.append(self.volume)
        before, self.drive, self.volume = self.volume, got.drive, got.volume
        self.secrets += [self.model.present] if name == "begin" else []
        self.same("drive and volume", (self.drive, self.volume), made(self.model.spec()))
        self.ledger.changed(before, self.volume, got.pads, self.model)
        self.mount()
        self.stale_mount(before, self.model.present, self.model.old)
        return got

    def queue(self, requests, data):
        """A queue is its writes: what they leave one after another, up to the first refusal."""
        given, image = (self.drive, self.volume), calls.request_bytes(requests)
        self.same("a queue too short", calls.queue(*given, image, data + b"!"),
                  calls.Result(calls.Answer(8), *given))
        at, done, answer, pads = 0, 0, calls.ACCEPTED, ()
        for offset, length in requests:
            got = self.change("write", offset, data[at:at + length])
            if got.answer.number:
                answer = got.answer
                break
            at, done, pads = at + length, done + 1, pads + got.pads
        self.same("a queue and its writes", calls.queue(*given, image, data),
                  calls.Result(answer, self.drive, self.volume, pads=pads, done=done))

    def mount(self):
        """With the right secrets and counter: accepted, and the very drive."""
        model = self.model
        got = calls.mount(self.volume, model.present, model.old, model.counter)
        self.same("mount", got, calls.Result(calls.ACCEPTED, self.drive, self.volume))

    def stale_mount(self, image, present, old):
        got = calls.mount(image, present, old, self.model.counter)
        self.tally.holds(f"{self.words}: stale image", got.answer.number in (4, 5, 6))
        self.same("stale image drive", got.drive, BLANK)

    def stale(self, chance):
        """An image left before the last accepted change, with secrets of the history."""
        if not self.images:
            return
        image = chance.choice(self.images)
        for present in set(self.secrets):
            self.stale_mount(image, present, chance.choice(self.secrets))
        got = calls.report(self.drive, image)
        self.same("stale image under the drive", (got.answer.number, got.answer.place.kind), (7, 1))

    def stale_all(self):
        """Every image left so far, with every two secrets of the history."""
        secrets = set(self.secrets)
        for image in self.images:
            for present in secrets:
                # The old secret enters only after the seal: the rest need not be tried.
                fits = calls.mount(image, present, present, self.model.counter).answer.number != 4
                for old in secrets if fits else [self.model.old]:
                    self.stale_mount(image, present, old)

    def wrong_mount(self, chance):
        model, wrong = self.model, bytes([chance.randrange(256)]) + bytes(31)
        got = calls.mount(self.volume, wrong, model.old, model.counter)
        self.same("wrong secret", got.answer.number, 0 if wrong == model.present else 4)
        got = calls.mount(self.volume, model.present, wrong, model.counter)
        want = 5 if model.state and wrong != model.old else 0
        self.same("wrong old secret", got.answer.number, want)
        outside = model.counter ^ 1 << chance.randrange(64)
        got = calls.mount(self.volume, model.present, model.old, outside)
        self.same("wrong counter", got, calls.Result(calls.Answer(6), BLANK, self.volume))

    def read(self, offset, length):
        """What is written is what is later read. A place never written reads as zero."""
        want = self.model.read(offset, length)
        got = calls.read(self.drive, self.volume, offset, b"?" * length)
        self.met.add(want)
        buffer = b"?" * length if want else bytes(self.model.shadow[offset:offset + length])
        self.same("read", (got.answer.number, got.buffer, got.drive, got.volume, got.pads),
                  (want, buffer, self.drive, self.volume, ()))

    def report(self):
        """The model's numbers, and those of the records themselves."""
        got = calls.report(self.drive, self.volume)
        self.same("report", (got.answer.number, tuple(got.report), got.drive, got.volume),
                  (0, self.model.report(), self.drive, self.volume))
        records = records_in(self.volume, self.model.n)
        moved = sum(record[3] == self.drive.epoch for record in records)
        told = got.report
        self.same("report of the records", (told.moved, told.left, told.flakes),
                  (moved, len(records) - moved, sum(ones(record[2]) for record in records)))
        self.same("whole share exactly if nothing is left", told.share == 10000, told.left == 0)

    def stored_flake(self, nugget, flake):
        model = self.model
        got = calls.stored_flake(self.drive, self.volume, nugget, flake)
        want = 8 if nugget >= model.n or flake >= model.p else 0
        start = len(self.volume) - model.size() + (nugget * model.p + flake) * model.f
        self.met.add(want)
        self.same("stored flake", (got.answer.number, got.span, got.drive, got.volume),
                  (want, (0, 0) if want else (start, model.f), self.drive, self.volume))

    def damaged(self, name, values, at, bit):
        """A call on a damaged copy is refused with 7 or does what it does undamaged."""
        call = getattr(calls, name)
        bad = flipped(self.volume, at, bit)
        clean, got = call(self.drive, self.volume, *values), call(self.drive, bad, *values)
        if got.answer.number == 7:
            want = calls.Result(got.answer, self.drive, bad, values[1] if name == "read" else b"")
            self.same(f"{name} refused on damage", got, want)
            return
        self.same(f"{name} on damage", got._replace(volume=b""), clean._replace(volume=b""))
        apart = [i for i, pair in enumerate(zip(got.volume, clean.volume)) if pair[0] != pair[1]]
        self.tally.holds(f"{self.words}: {name} apart at {apart}", apart in ([], [at]))
