"""What a history of calls must do, told on plain data: no cipher, no tree, no volume.

It predicts each call's answer and the encipherings listed, in document 01's words.
"""

from fractions import Fraction

from checks.make import Spec, full

TOP = 2**64 - 1
# What a discard can meet, and a write behind it.
FREEING = {"version 1", "past the end", "no flake", "nothing held", "freed before", "freed", "freed in a left nugget", "written where freed"}


class Model:
    """Starts from a spec whose present flakes hold the spec's texts."""

    def __init__(self, spec):
        self.n, self.p, self.f = spec.n, spec.p, spec.f
        self.salt = spec.salt
        self.state, self.epoch, self.counter = spec.state, spec.epoch, spec.counter
        self.records = [full(record) for record in spec.records]
        self.version, self.cipher, self.ghosts = spec.version, spec.cipher, dict(spec.ghosts)
        self.present, self.old, self.freeing = spec.present, spec.old, set()
        self.shadow = bytearray()
        for n, (_, _, held, _) in enumerate(self.records):
            for f in range(self.p):
                self.shadow += spec.text(n, f, self.f) if held >> f & 1 else bytes(self.f)

    def size(self):
        return self.n * self.p * self.f

    def text(self, n, f, size):
        at = (n * self.p + f) * size
        return bytes(self.shadow[at:at + size])

    def spec(self):
        """The volume that must stand now, for `made`."""
        return Spec(self.n, self.p, self.f, self.state, self.epoch, self.counter, self.records,
                    self.present, self.old, self.text, salt=self.salt, version=self.version,
                    ghosts=self.ghosts, cipher=self.cipher)

    def left(self):
        return sum(record[3] != self.epoch for record in self.records)

    def flakes(self, n):
        return [f for f in range(self.p) if self.records[n][2] >> f & 1]

    def spent(self, n):
        return {f for f in range(self.p) if self.records[n][1] >> f & 1}

    def report(self):
        moved = self.n - self.left()
        present = [len(self.flakes(n)) for n in range(self.n)]
        done = sum(present[n] for n in range(self.n) if self.records[n][3] == self.epoch)
        part = Fraction(done, sum(present)) if any(present) else Fraction(moved, self.n)
        share = 9999 if part == 1 and self.left() else int(part * 10000)
        return (self.n, moved, self.left(), sum(present), share, done)

    def rekey(self, n, flakes):
        """Raises the keycount, moves the nugget, and enciphers these flakes and no other."""
        mask = sum(1 << f for f in flakes)
        self.records[n] = [self.records[n][0] + 1, mask, mask, self.epoch]

    def laid(self, n, flakes):
        """The pads of these flakes; what lay there before is gone."""
        for f in flakes:
            self.ghosts.pop((n, f), None)
        return [(n, self.records[n][0], f) for f in sorted(flakes)]

    def write(self, offset, data):
        """The answer's number and the pads; if accepted the model moves on."""
        if offset + len(data) > self.size():
            return 8, []
        if not data:
            return 0, []
        if self.counter == TOP:
            return 13, []
        plan = {}
        for flake in range(offset // self.f, (offset + len(data) - 1) // self.f + 1):
            plan.setdefault(flake // self.p, set()).add(flake % self.p)
        anew = {n for n in plan
                if plan[n] & self.spent(n) or self.records[n][3] != self.epoch}
        pads = []
        for n in plan:
            fresh = plan[n] | set(self.flakes(n)) if n in anew else plan[n]
            self.freeing |= {"written where freed" for f in plan[n] if (n, f) in self.ghosts}
            if n in anew:
                self.rekey(n, fresh)
            for mask in (1, 2):
                self.records[n][mask] |= sum(1 << f for f in plan[n])
            pads += self.laid(n, fresh)
        self.shadow[offset:offset + len(data)] = data
        self.counter += 1
        return 0, pads

    def begin(self, secret):
        if self.state:
            return 9, []
        if secret == self.present:
            return 10, []
        if self.epoch == 65535:
            return 15, []
        if self.counter == TOP:
            return 13, []
        self.state, self.epoch, self.counter = 1, self.epoch + 1, self.counter + 1
        self.present, self.old = secret, self.present
        return 0, []

    def sweep(self, n):
        if not self.state:
            return 9, []
        if n >= self.n:
            return 8, []
        if self.records[n][3] == self.epoch:
            return 12, []
        if self.counter == TOP:
            return 13, []
        self.rekey(n, self.flakes(n))
        self.counter += 1
        return 0, self.laid(n, self.flakes(n))

    def finish(self):
        if not self.state:
            return 9, []
        if self.left():
            return 11, []
        if self.counter == TOP:
            return 13, []
        self.state, self.counter, self.old = 0, self.counter + 1, bytes(32)
        return 0, []

    def discard(self, n, first, count):
        """Document 02, Item 4. What is freed counts as never written; its stored bytes stay."""
        if self.version == 1:
            self.freeing.add("version 1")
            return 9, []
        if n >= self.n or first + count > self.p:
            self.freeing.add("past the end")
            return 8, []
        freed = [f for f in self.flakes(n) if first <= f < first + count]
        if not freed:
            again = any((n, f) in self.ghosts for f in range(first, first + count))
            self.freeing.add("freed before" if again else "nothing held" if count else "no flake")
            return 0, []
        if self.counter == TOP:
            return 13, []
        keycount, _, _, epoch = self.records[n]
        self.freeing.add("freed" if epoch == self.epoch else "freed in a left nugget")
        secret = self.present if epoch == self.epoch else self.old
        for f in freed:
            self.ghosts[n, f] = secret, keycount, self.text(n, f, self.f)
            self.records[n][2] &= ~(1 << f)
            at = (n * self.p + f) * self.f
            self.shadow[at:at + self.f] = bytes(self.f)
        self.counter += 1
        return 0, []

    def read(self, offset, length):
        return 8 if offset + length > self.size() else 0
