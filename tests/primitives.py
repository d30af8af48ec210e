"""The exported primitives against independent ones, on random inputs.

It builds a shared object of the proved library and calls it by ctypes. BLAKE2s is compared with hashlib; ChaCha20
and Poly1305 with the second program's. NGT_SEED sets the seed; a failure prints it with the case.
"""
import ctypes
import hashlib
import random
import sys

from proved import ROOT, SEED, library

sys.path.insert(0, str(ROOT / "second"))
import primitives  # noqa: E402

LONGEST = 5000
CASES = 1000


def lengths(source):
    """Every length up to 130, every residue around the blocks of 16 and 64, and random ones up to the longest."""
    near = [64 * k + r for k in (4, 16, 64, 78) for r in range(-3, 4)]
    near += [16 * k + r for k in (11, 63, 255, 311) for r in range(-2, 3)]
    some = list(range(131)) + near + [LONGEST]
    return some + [source.randrange(LONGEST + 1) for _ in range(CASES - len(some))]


def bytes_of(source, n):
    """Random bytes, or the ends of a byte's range, where carries are."""
    way = source.randrange(4)
    if way == 0:
        return bytes(source.choice((0x00, 0xFF)) for _ in range(n))
    if way == 1:
        return bytes([0xFF]) * n
    return source.randbytes(n)


def counter_of(source, n):
    """A block counter, now and then one that rolls over within the message."""
    if source.randrange(4) == 0:
        return (2**32 - source.randrange(n // 64 + 2)) % 2**32
    return source.randrange(2**32)


def chacha20(proved, source, m):
    key, nonce, counter = source.randbytes(32), source.randbytes(12), counter_of(source, len(m))
    stream = primitives.keystream(key, nonce, counter, (len(m) + 63) // 64)
    d = ctypes.create_string_buffer(m, len(m) + 1)
    proved.ngt_chacha20(d, ctypes.c_size_t(len(m)), key, nonce, ctypes.c_uint32(counter))
    return d.raw == primitives.xor(m, stream[:len(m)]) + b"\0"


def poly1305(proved, source, m):
    key = bytes_of(source, 32)
    tag = ctypes.create_string_buffer(17)
    proved.ngt_poly1305(m, ctypes.c_size_t(len(m)), key, tag)
    return tag.raw == primitives.poly1305(key, m) + b"\0"


def blake2s(proved, source, m):
    out = ctypes.create_string_buffer(33)
    proved.ngt_blake2s(m, ctypes.c_size_t(len(m)), out)
    return out.raw == hashlib.blake2s(m).digest() + b"\0"


def blake2s_keyed(proved, source, m):
    key = source.randbytes(32)
    out = ctypes.create_string_buffer(33)
    proved.ngt_blake2s_keyed(m, ctypes.c_size_t(len(m)), key, out)
    return out.raw == hashlib.blake2s(m, key=key).digest() + b"\0"


def main():
    proved = library("primitives")
    passed = failed = 0
    for case, n in enumerate(lengths(random.Random(SEED))):
        for compare in (chacha20, poly1305, blake2s, blake2s_keyed):
            source = random.Random(f"{SEED} {case} {compare.__name__}")
            if compare(proved, source, bytes_of(source, n)):
                passed += 1
            else:
                failed += 1
                print(f"{compare.__name__} differs: NGT_SEED={SEED}, case {case}, {n} bytes")
    print(f"{passed} passed, {failed} failed")
    return 1 if failed else 0


if __name__ == "__main__":
    sys.exit(main())
