"""Random histories of 40 calls.

Clean ones begin with an accepted format, or with a volume sealed near the tops of its numbers;
demands 2 and 3 are held against them after every call, and damaged copies, wrong secrets and
stale images are tried beside them; where each ends it is moved to the other version, back, and there
again. Hostile ones go on from the damage itself.
"""

import random

import calls
import moving
from layout import layout

from checks.choose import TOP, a_range, secret, shape
from checks.history import History
from checks.hostile import Hostile
from checks.make import Spec, made, some_text
from checks.model import FREEING

COUNT, STEPS = 400, 40


def fresh(tally, chance, words):
    """A history that begins with an accepted format."""
    n, p, f = shape(chance)
    version, cipher = chance.choice((1, 2)), chance.choice((0, 16))
    outside, salt = chance.choice((0, 7, 2**32 - 1, TOP - 20)), chance.randbytes(16)
    spec = Spec(n, p, f, 0, 1, outside + 1, [[0, 0, 1]] * n, secret(chance), bytes(32), salt=salt,
                version=version, cipher=cipher)
    old_bytes = bytes([chance.randrange(256)]) * layout(n, p, f, version).length
    got = calls.format(old_bytes, n, p, f, salt, spec.present, outside, version, cipher)
    tally.same(f"{words}: format", (got.answer.number, got.drive, got.volume), (0,) + made(spec))
    return History(tally, words, spec)


def near_tops(tally, chance, words):
    """A history that goes on from a volume sealed with numbers near their tops."""
    n, p, f = chance.randint(1, 5), chance.choice((1, 2, 3, 64)), 64
    state = chance.randrange(2)
    epoch = chance.choice((65533, 65534, 65535))
    counter = TOP - chance.choice((0, 3, 15, 60))
    version = chance.choice((1, 2))
    records = []
    for _ in range(n):
        held = chance.randrange(2**min(p, 3))
        spent = held if version == 1 else held | chance.randrange(2**min(p, 3))
        records.append([chance.choice((0, counter - 1, counter, counter)), spent, held,
                        epoch - chance.randrange(2) * state])
    old = secret(chance) if state else bytes(32)
    return History(tally, words, Spec(n, p, f, state, epoch, counter, records, secret(chance), old,
                                      some_text, version=version, cipher=chance.choice((0, 16))))


def a_change(chance, history):
    """A changing call and its values."""
    model = history.model
    name = chance.choices(("write", "begin", "sweep", "finish", "discard"), (6, 1, 4, 2, 4))[0]
    if name == "write":
        offset, length = a_range(chance, model.size())
        return name, offset, chance.randbytes(length)
    if name == "begin":
        new = model.present if chance.random() < 0.1 else secret(chance)
        # A site may well go back to a secret it had before.
        return name, chance.choice(history.secrets[:1]) if chance.random() < 0.2 else new
    if name == "sweep":
        left = [n for n in range(model.n) if model.records[n][3] != model.epoch]
        wild = chance.choice((chance.randint(0, model.n), 2**32 - 1, 0))
        return name, chance.choice(left) if left and chance.random() < 0.7 else wild
    if name == "discard":
        return name, *a_discard(chance, model)
    return (name,)


def a_discard(chance, model):
    """0 to P flakes of a nugget, mostly of one that holds some, often of one that is left; at times again those just freed, at times
    past the end."""
    if model.ghosts and chance.random() < 0.2:
        n, first = chance.choice(sorted(model.ghosts))
        return n, first, 1
    holding = [n for n in range(model.n) if model.flakes(n)] or [0]
    left = [n for n in holding if model.records[n][3] != model.epoch] or holding
    n = chance.choice((chance.choice(holding), chance.choice(left), chance.choice(left), chance.randrange(model.n), model.n, 2**32 - 1))
    first = chance.choice((0, 0, chance.randint(0, model.p), 2**32 - 1 if chance.random() < 0.1 else 0))
    return n, first, chance.choice((0, 1, 1, model.p - first, model.p - first, model.p, 2**32 - 1)) % 2**32


def damage(chance, history):
    size = history.model.size()
    name, *values = a_change(chance, history)
    if chance.random() < 0.5:
        offset, length = a_range(chance, size)
        name, values = "read", [offset, b"?" * length]
    history.damaged(name, values, chance.randrange(len(history.volume)), chance.randrange(8))


def step(chance, history):
    kind = chance.choices(("change", "queue", "read", "report", "stored", "stale", "wrong",
                           "damage"), (12, 1, 4, 1, 1, 2, 1, 4))[0]
    model = history.model
    if kind == "change":
        history.change(*a_change(chance, history))
    elif kind == "queue":
        requests = [a_range(chance, model.size()) for _ in range(chance.randint(0, 5))]
        history.queue(requests, chance.randbytes(sum(length for _, length in requests)))
    elif kind == "read":
        history.read(*a_range(chance, model.size()))
    elif kind == "report":
        history.report()
    elif kind == "stored":
        history.stored_flake(chance.randint(0, model.n), chance.randint(0, model.p))
    elif kind == "stale":
        history.stale(chance)
    elif kind == "wrong":
        history.wrong_mount(chance)
    else:
        damage(chance, history)


def but_counter_and_seal(volume):
    return volume[:32] + volume[40:72] + volume[104:]


def moves(tally, chance, words, drive, volume):
    """From where a history ends: to the other version, back, and there again."""
    first = volume
    for turn in range(3):
        down = drive.version == 2
        room = chance.randbytes(layout(drive.n, drive.p, drive.f, 1 if down else 2).length)
        got = (moving.down if down else moving.up)(drive, volume, room)
        if got.answer.number:
            tally.same(f"{words}: a move is refused", got.answer.number in ((13, 16) if down and turn == 0 else (13,)), True)
            return
        drive, volume = got.drive, got.buffer
        if turn == 1:
            tally.same(f"{words}: there and back", but_counter_and_seal(volume), but_counter_and_seal(first))


def clean(tally, chance, words, begins):
    """The numbers that its calls were answered, and what its discards met."""
    history = begins(tally, chance, words)
    history.mount()
    for _ in range(STEPS):
        step(chance, history)
    history.read(0, history.model.size())
    history.report()
    history.stale_all()
    moves(tally, chance, words, history.drive, history.volume)
    return history.met | history.model.freeing


def hostile(tally, chance, words):
    history = Hostile(tally, words, chance, shape(chance))
    for _ in range(STEPS):
        history.step()


def one(tally, i):
    """History number i of a seed: of each eight, three are hostile, two begin near the tops."""
    chance, words = random.Random(f"history {i} {tally.seed}"), f"history {i}"
    if i % 8 in (1, 4, 6):
        hostile(tally, chance, words)
        return set()
    return clean(tally, chance, words, near_tops if i % 8 in (3, 7) else fresh)


def run(tally):
    met = set()
    for i in range(COUNT):
        met |= one(tally, i)
    tally.same("every answer of an undamaged history was met, and every kind of discard", met, {0, *range(8, 14), 15} | FREEING)
