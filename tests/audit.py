"""The built auditor's page against the second program's: the sheet's inputs; random drives of many shapes, steady and changing,
with numbers at their tops; the fullest volumes; a drive at 100.00 before and after its finish; and drives well sealed over
records that are ill formed. All in either version and under either cipher.

"""
import inputs
import audit
import sheet
from checks.make import Spec, full, made
from layout import EPOCH_TOP, TOP, layout

DRIVES = 60
SHOWN = inputs.REFUSALS + [b"key=old", b"key=new", b"key=present", b"flakes=-", b"flakes=0,1,2,", b",63\n", b"epoch=65535",
                           b"keycount=%d" % TOP, b"counter=%d" % TOP]
# 100.00 twice: swept to the end and not finished, and finished.
SWEPT = b"nuggets=1 moved=1 left=0 flakes=1 share=100.00 done=1\nnugget=0 key=new epoch=2 keycount=1 flakes=0\ncounter=3\nold=needed\n"
FINISHED = b"nuggets=1 moved=1 left=0 flakes=1 share=100.00 done=1\nnugget=0 key=present epoch=2 keycount=1 flakes=0\ncounter=4\nold=free\n"


def given(spec, **other):
    """The input that mounts the spec's volume, but for what is given otherwise."""
    drive, volume = made(spec)
    with_it = dict(present=drive.present, old=spec.old, outside=drive.counter)
    with_it.update(other)
    return with_it["present"] + with_it["old"] + with_it["outside"].to_bytes(8, "little") + volume


def some_journal(source, p):
    return source.choice((0, (1 << p) - 1, 1 << source.randrange(p), source.getrandbits(p)))


def some_record(source, p, state, epoch, counter, version):
    """In version 2 some spent flakes aren't held."""
    keycount = min(source.choice((0, source.randrange(12), 10 ** source.randrange(20), counter)), counter)
    spent = some_journal(source, p)
    held = spent if version == 1 else spent & some_journal(source, p)
    masks = [spent] if version == 1 else [spent, held]
    return [keycount, *masks, epoch - state * source.randrange(2)]


def some_spec(source, n, p, f=64, version=1):
    state = source.randrange(2)
    epoch = source.choice((1 + state, 9 + state, source.randint(1 + state, EPOCH_TOP), EPOCH_TOP))
    counter = source.choice((0, source.getrandbits(64), 10 ** source.randrange(20), TOP))
    return Spec(n, p, f, state, epoch, counter, [some_record(source, p, state, epoch, counter, version) for _ in range(n)],
                version=version, cipher=source.choice((0, 16)))


def drives(source):
    for case in range(DRIVES):
        shape = source.randint(1, 12), source.choice((1, 2, 3, 10, 11, 63, 64))
        yield f"drive {case} of shape {shape}", given(some_spec(source, *shape, version=source.choice((1, 2))))
    for version, most in ((1, 291), (2, 269)):
        for n, p, f in ((most, 1, 64), (256, 1, 64), (11, 64, 64), (1, 14, 4096), (100, 5, 64)):
            assert layout(n, p, f, version).length <= sheet.MOST - 72
            yield f"the fullest of {n} nuggets, version {version}", given(some_spec(source, n, p, f, version))
        assert layout(most + 1, 1, 64, version).length > sheet.MOST - 72


def at_the_end():
    for state, version in ((1, 1), (0, 1), (1, 2), (0, 2)):
        yield f"everything moved, state {state}, version {version}", given(Spec(1, 1, 64, state, 2, 4 - state, [[1, 1, 2]], version=version))


def spoilt(source, spec):
    """The spec with one record ill formed: a keycount above the counter, a bit past P, in version 2 a held bit that isn't spent, or an
    epoch that isn't the head's nor the one left."""
    records = [full(record) for record in spec.records]
    record = source.choice(records)
    if source.randrange(3) == 0:
        record[0] = spec.counter + 1
    elif spec.version == 2 and source.randrange(2):
        bit = 1 << source.randrange(spec.p)
        record[1], record[2] = record[1] & ~bit, record[2] | bit
    elif spec.p < 64 and source.randrange(2):
        bit = 1 << source.randint(spec.p, 63)
        record[1], record[2] = record[1] | bit, record[2] | bit * (spec.version == 1 or source.randrange(2))
    else:
        record[3] = source.choice([e for e in (0, spec.epoch - 2, spec.epoch - 1 + spec.state * 2, EPOCH_TOP)
                                   if 0 <= e <= EPOCH_TOP and e not in (spec.epoch, spec.epoch - spec.state)])
    return spec._replace(records=records)


def hostile(source):
    for case in range(24):
        spec = some_spec(source, source.randint(1, 6), source.choice((1, 2, 63, 64)), version=1 + case % 2)._replace(epoch=5, counter=7)
        spec = spec._replace(records=[[min(k, 7), *masks, 5 - (e != 5) * spec.state] for k, *masks, e in map(full, spec.records)])
        yield f"ill-formed record, case {case}", given(spoilt(source, spec))
        yield f"another present secret, case {case}", given(spec, present=bytes(32))
        yield f"another old secret, case {case}", given(spec, old=bytes(32))
        yield f"another counter, case {case}", given(spec, outside=source.choice((6, 8, 0, TOP)))
        good = given(spec)
        yield f"damaged, case {case}", inputs.flipped(good, source.randrange(len(good)), source.randrange(8))


def cases(source):
    yield from inputs.around_the_sample(source, 30)
    yield from drives(source)
    yield from at_the_end()
    yield from hostile(source)


inputs.compare("audit", audit.page, cases, SHOWN + [SWEPT, FINISHED])
