"""The exported AES-256 against Debian's python3-cryptography, on random keys, blocks, counters and lengths.

It builds a shared object of the proved library and calls it by ctypes. A counter whose block number rolls over within
the message is compared block by block, since that library steps all sixteen bytes and document 02 only the last eight.
NGT_SEED sets the seed; a failure prints it with the case.
"""
import ctypes
import random
import sys

from cryptography.hazmat.primitives.ciphers import Cipher, algorithms, modes

from proved import SEED, Tally, left, library, room

LONGEST = 5000
CASES = 1000
NUMBERS = 2**64


def lengths(source):
    """Every length up to 130, every residue around the pieces of 16 and 64, and random ones up to the longest."""
    near = [64 * k + r for k in (4, 16, 64, 78) for r in range(-3, 4)]
    near += [16 * k + r for k in (11, 63, 255, 311) for r in range(-2, 3)]
    some = list(range(131)) + near + [LONGEST]
    return some + [source.randrange(LONGEST + 1) for _ in range(CASES - len(some))]


def key_of(source):
    """Random bytes, or a key of zeros or of ones."""
    return source.choice((bytes(32), b"\xff" * 32, *[source.randbytes(32)] * 6))


def one_block(key, block, way):
    cipher = Cipher(algorithms.AES(key), modes.ECB())
    return (cipher.encryptor() if way else cipher.decryptor()).update(block)


def keystream(key, keycount, number, n):
    """The output blocks for n bytes."""
    count = (n + 15) // 16
    start = keycount.to_bytes(8, "big") + number.to_bytes(8, "big")
    if number + count <= NUMBERS:
        return Cipher(algorithms.AES(key), modes.CTR(start)).encryptor().update(bytes(n))
    steps = ((number + j) % NUMBERS for j in range(count))
    return b"".join(one_block(key, start[:8] + step.to_bytes(8, "big"), True) for step in steps)[:n]


def number_of(source, n):
    """A block number, now and then one that rolls over within the message."""
    if source.randrange(4) == 0:
        return (NUMBERS - source.randrange(n // 16 + 2)) % NUMBERS
    return source.randrange(NUMBERS)


def counter_mode(proved, source, n, case, tally):
    key, text = key_of(source), source.randbytes(n)
    keycount, number = source.choice((0, 1, NUMBERS - 1, source.randrange(NUMBERS))), number_of(source, n)
    wanted = bytes(a ^ b for a, b in zip(text, keystream(key, keycount, number, n)))
    d = room(text)
    proved.ngt_aes256_ctr(d, ctypes.c_size_t(n), key, ctypes.c_uint64(keycount), ctypes.c_uint64(number))
    tally.same("counter mode", case, left(d), wanted, n)


def blocks(proved, source, n, case, tally):
    key, block = key_of(source), source.choice((bytes(16), b"\xff" * 16, source.randbytes(16), source.randbytes(16)))
    for way, call in ((True, proved.ngt_aes256_encrypt), (False, proved.ngt_aes256_decrypt)):
        d = room(block)
        call(d, key)
        tally.same("encryption" if way else "decryption", case, left(d), one_block(key, block, way))


def main():
    proved, tally = library("aes_primitives"), Tally()
    for case, n in enumerate(lengths(random.Random(SEED))):
        for compare in (counter_mode, blocks):
            compare(proved, random.Random(f"{SEED} {case} {compare.__name__}"), n, case, tally)
    return tally.close()


if __name__ == "__main__":
    sys.exit(main())
