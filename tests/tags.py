"""Tags of version 2 against Debian's python3-cryptography, which lays a message out after RFC 8439 2.8 by itself.

Its ChaCha20-Poly1305 enciphers a text with nugget, flake and keycount as associated data. Under the one-time key, the front of its
own ChaCha20's block 0 (2.6), our tag over its ciphertext has to be its tag. A whole tag, with its key, is held against hashlib's
BLAKE2s and its Poly1305 over the bytes that document 02, Item 5, names. NGT_SEED sets the seed; a failure prints it with the case.
"""
import ctypes
import hashlib
import random
import struct
import sys

from cryptography.hazmat.primitives.ciphers import Cipher, algorithms
from cryptography.hazmat.primitives.ciphers.aead import ChaCha20Poly1305
from cryptography.hazmat.primitives.poly1305 import Poly1305

from proved import SEED, Tally, left, library, room, slice_of

CASES = 1000
U16, U32, U64 = ctypes.c_uint16, ctypes.c_uint32, ctypes.c_uint64


def lengths(source):
    """Every length up to 130, those around the largest flake, and random ones up to 5,000."""
    some = list(range(131)) + [64 * k + r for k in (4, 16, 63, 64) for r in range(-17, 18)]
    return some + [source.randrange(5001) for _ in range(CASES - len(some))]


def ends(source, bits):
    """A number of so many bits: an end of its range, or any."""
    return source.choice((0, 1, 2**bits - 1, *[source.randrange(2**bits)] * 5))


def one_time_key(key, nonce):
    return Cipher(algorithms.ChaCha20(key, bytes(4) + nonce), None).encryptor().update(bytes(32))


def named_tag(proved, source, text, n, f, k):
    """Its own layout: the tag of its authenticated encryption, and ours over its ciphertext."""
    key, nonce = source.randbytes(32), source.randbytes(12)
    sealed = ChaCha20Poly1305(key).encrypt(nonce, text, struct.pack("<IHQ", n, f, k))
    made = room(size=16)
    proved.ngt_named_tag(*slice_of(sealed[:-16]), one_time_key(key, nonce), U32(n), U64(k), U32(f), made)
    return left(made), sealed[-16:]


def whole_tag(proved, source, stored, n, f, k):
    """Letter, key and layout of a flake's tag, from the paper."""
    key = source.randbytes(32)
    tag_key = hashlib.blake2s(b"G" + struct.pack("<HQ", f, k), key=key, digest_size=32).digest()
    whole = struct.pack("<IHQ2x", n, f, k) + stored + struct.pack("<QQ", 14, len(stored))
    made = room(size=16)
    proved.ngt_tag(*slice_of(stored), U16(2), key, U32(n), U64(k), U32(f), made)
    return left(made), Poly1305.generate_tag(tag_key, whole)


def main():
    proved, tally = library("probe"), Tally()
    for case, size in enumerate(lengths(random.Random(SEED))):
        source = random.Random(f"{SEED} {case}")
        n, f, k = ends(source, 32), ends(source, 16), ends(source, 64)
        tally.same("named tag", (case, size), *named_tag(proved, source, source.randbytes(size), n, f, k), size)
        flake = source.randbytes(64 * (size // 64 % 64 + 1))
        tally.same("tag", (case, len(flake)), *whole_tag(proved, source, flake, n, f, k), len(flake))
    return tally.close()


if __name__ == "__main__":
    sys.exit(main())
