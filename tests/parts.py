"""Keys, pads, tags, leaves, nodes, path and whole: the proved code against the second program.

Tag keys and tags of both versions. Random volumes of several shapes, whole and damaged, of version 1: `probe` has no other;
`calls.py` and `histories.py` have both.
NGT_SEED sets the seed; a failure prints it with the case.
"""
import ctypes
import random
import struct
import sys

from proved import ROOT, SEED, Tally, left, library, room, slice_of

sys.path.insert(0, str(ROOT / "second"))
import answers  # noqa: E402
import keys  # noqa: E402
import tree  # noqa: E402
from layout import TOP, layout  # noqa: E402
from primitives import xor  # noqa: E402

U16, U32, U64, FLAG = ctypes.c_uint16, ctypes.c_uint32, ctypes.c_uint64, ctypes.c_bool
SHAPES = [(1, 1, 64), (1, 3, 64), (2, 2, 64), (3, 2, 64), (5, 2, 64), (8, 1, 128), (33, 2, 64), (3, 64, 64), (6, 4, 256)]


def image(place):
    """The answer's image of a bad place, or of acceptance."""
    return (answers.altered(place) or answers.ACCEPTED).image()


def out(call, size, *words):
    made = room(size=size)
    call(*words, made)
    return left(made)


def compare_keys(tally, proved, source, case):
    a, b, salt = source.randbytes(32), source.randbytes(32), source.randbytes(16)
    n, f, k = source.randrange(2**32), source.randrange(2**16), source.choice([0, 2**64 - 1, source.randrange(2**64)])
    epoch, front, node = source.randrange(2**16), source.randbytes(72), source.randbytes(32)
    tally.same("nugget key", case, out(proved.ngt_nugget_key, 32, a, salt, U32(n)), keys.nugget_key(a, salt, n))
    for version in keys.LETTER:
        said = out(proved.ngt_tag_key, 32, U16(version), a, U32(f), U64(k))
        tally.same("tag key", (case, version), said, keys.tag_key(version, a, f, k))
    tally.same("check", case, out(proved.ngt_check, 32, a, salt, U16(epoch)), keys.old_check(a, salt, epoch))
    tally.same("seal", case, out(proved.ngt_seal, 32, a, *slice_of(front), *slice_of(node)), keys.seal(a, front, node))
    size, f = 64 * source.randrange(1, 65), source.randrange(64)
    stored = source.randbytes(size)
    laid = room(stored)
    proved.ngt_lay_pad(laid, ctypes.c_size_t(size), b, U64(k), U32(f))
    tally.same("pad", case, left(laid), xor(stored, keys.pad(b, k, f, size)))
    for version in keys.LETTER:
        for data in stored, stored[:source.randrange(size)]:
            said = out(proved.ngt_tag, 16, *slice_of(data), U16(version), b, U32(n), U64(k), U32(f))
            tally.same("tag", (case, version, len(data)), said, keys.tag(version, b, n, k, f, data))


def volume_of(source, lay, epoch, changing, counter):
    """Records mostly well formed, any tags, any flakes, and the tree that belongs to them."""
    v = bytearray(source.randbytes(lay.length))
    for n in range(lay.n):
        journal = source.randrange(2**lay.p)
        if lay.p < 64 and source.randrange(12) == 0:
            journal |= 1 << source.randrange(lay.p, 64)
        behind = source.choice([0, 1]) if changing else 0
        if source.randrange(12) == 0:
            behind = source.choice([1, 2, -1])
        keycount = source.choice([0, counter, source.randrange(counter + 1)])
        if source.randrange(12) == 0:
            keycount = min(counter + source.choice([1, 2**32]), TOP)
        v[lay.record_at(n):lay.record_at(n) + 18] = struct.pack("<QQH", keycount, journal, (epoch - behind) % 2**16)
    v[lay.tree:lay.flakes] = tree.build(v, lay)
    return v


def damaged(source, lay, v):
    """None, one or a few flipped bits, most of them in records, tags and tree."""
    v = bytearray(v)
    for _ in range(source.choice([0, 0, 1, 1, 2, 3])):
        at = source.randrange(lay.flakes) if source.randrange(8) else source.randrange(lay.length)
        v[at] ^= 1 << source.randrange(8)
    return v


def compare_tests(tally, proved, case, lay, v, head):
    n, p, f = U32(lay.n), U32(lay.p), U32(lay.f)
    held = U16(head[0]), FLAG(head[1]), U64(head[2])
    said = out(proved.ngt_whole, 16, *slice_of(bytes(v)), n, p, f, *held)
    tally.same("whole", case, said, image(tree.whole_test(v, lay, head)))
    for i in range(lay.n):
        said = out(proved.ngt_path, 16, *slice_of(bytes(v)), n, p, f, *held, U32(i))
        tally.same("path", (case, i), said, image(tree.path_test(v, lay, head, i)))


def compare_stores(tally, proved, source, case, lay, v):
    n, p, f = U32(lay.n), U32(lay.p), U32(lay.f)
    built = bytearray(v)
    built[lay.tree:lay.flakes] = tree.build(v, lay)
    mine = room(v)
    proved.ngt_build(mine, ctypes.c_size_t(len(v)), n, p, f)
    tally.same("build", case, left(mine), bytes(built))
    nugget, renewed, mine = source.randrange(lay.n), bytearray(v), room(v)
    tree.renew(renewed, lay, nugget)
    proved.ngt_renew(mine, ctypes.c_size_t(len(v)), n, p, f, U32(nugget))
    tally.same("renew", (case, nugget), left(mine), bytes(renewed))


def compare_refusals(tally, proved, case, lay, v):
    """Tests 1, 2 and 8 of the calls themselves, and nothing stored."""
    n, p, f = U32(lay.n), U32(lay.p), U32(lay.f)
    for what, words, number in (("length", (bytes(v[:-1]), n, p, f, U32(0)), 2), ("limits", (bytes(v), U32(16385), p, f, U32(0)), 1),
                                ("nugget", (bytes(v), n, p, f, U32(lay.n)), 8)):
        data, a, b, c, nugget = words
        said = out(proved.ngt_path, 16, *slice_of(data), a, b, c, U16(1), FLAG(False), U64(9), nugget)
        tally.same(f"path refuses {what}", case, said, struct.pack("<IIII", number, 0, 0, 0))
        mine = room(data)
        proved.ngt_renew(mine, ctypes.c_size_t(len(data)), a, b, c, nugget)
        tally.same(f"renew refuses {what}", case, left(mine), data)


def places(tally, proved):
    """Readings 3, 4 and 6: one nugget alone; a padding leaf; nodes 7 and 13 of five nuggets at once."""
    def told(shape, nodes):
        lay = layout(*shape)
        v = volume_of(random.Random(7), lay, 1, False, 9)
        for i in range(lay.n):
            v[lay.record_at(i):lay.record_at(i) + 18] = struct.pack("<QQH", i, 1, 1)
        v[lay.tree:lay.flakes] = tree.build(v, lay)
        for i in nodes:
            v[lay.node_at(i)] ^= 1
        return out(proved.ngt_whole, 16, *slice_of(bytes(v)), U32(lay.n), U32(lay.p), U32(lay.f), U16(1), FLAG(False), U64(9))
    for shape, nodes, kind, value in (((1, 1, 64), [1], 2, 0), ((3, 2, 64), [7], 3, 7), ((3, 2, 64), [1], 3, 1), ((5, 2, 64), [7, 13], 3, 13),
                                      ((5, 2, 64), [7], 3, 7), ((5, 2, 64), [15, 1], 3, 15), ((5, 2, 64), [12, 15], 2, 4)):
        tally.same("place", (shape, nodes), told(shape, nodes), struct.pack("<IIII", 7, kind, value, 0))
    tally.same("place", "sound", told((5, 2, 64), []), bytes(16))


def main():
    proved, tally = library("probe"), Tally()
    places(tally, proved)
    for case in range(300):
        compare_keys(tally, proved, random.Random(f"{SEED} keys {case}"), case)
    for case in range(60):
        for shape in SHAPES:
            source, lay = random.Random(f"{SEED} {shape} {case}"), layout(*shape)
            changing = source.choice([False, True])
            epoch = source.choice([2, 65535, source.randrange(2, 65536)]) if changing else source.choice([1, 2, 65535])
            counter = source.choice([0, 1, 9, TOP - 1, TOP, source.randrange(2**64)])
            v = volume_of(source, lay, epoch, changing, counter)
            hurt = damaged(source, lay, v)
            compare_tests(tally, proved, (shape, case), lay, hurt, (epoch, changing, counter))
            compare_stores(tally, proved, source, (shape, case), lay, hurt)
            if case < 3:
                compare_refusals(tally, proved, (shape, case), lay, v)
    return tally.close()


if __name__ == "__main__":
    sys.exit(main())
