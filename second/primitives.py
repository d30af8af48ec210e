"""ChaCha20 and Poly1305 after RFC 8439; BLAKE2s (RFC 7693) from the standard library."""

import hashlib
import struct
from functools import lru_cache

WORD = 0xFFFFFFFF
CONSTANTS = struct.unpack("<4I", b"expand 32-byte k")
PRIME = 2**130 - 5
CLAMP = 0x0FFFFFFC0FFFFFFC0FFFFFFC0FFFFFFF


def le(value, width):
    """A number in `width` little-endian bytes; what doesn't fit falls off at the top."""
    return (value & ((1 << 8 * width) - 1)).to_bytes(width, "little")


def number(data):
    return int.from_bytes(data, "little")


def blake2s(key, message):
    return hashlib.blake2s(message, key=key, digest_size=32).digest()


def _row(words):
    """Words in one integer, 64 bits apart: a sum or a shift of one has room above it."""
    return number(struct.pack("<%dQ" % len(words), *words))


@lru_cache(maxsize=128)
def _masks(blocks):
    """For rows of 4 * blocks words: every word; the first of each four; the other three."""
    first = _row([WORD, 0, 0, 0] * blocks)
    return _row([WORD] * 4 * blocks), first, first << 64 | first << 128 | first << 192


def _quarter_rounds(a, b, c, d, mask):
    """The quarter round, on all columns of all blocks at once."""
    a = (a + b) & mask
    d ^= a
    d = (d << 16 | d >> 16) & mask
    c = (c + d) & mask
    b ^= c
    b = (b << 12 | b >> 20) & mask
    a = (a + b) & mask
    d ^= a
    d = (d << 8 | d >> 24) & mask
    c = (c + d) & mask
    b ^= c
    return a, (b << 7 | b >> 25) & mask, c, d


def _turn_one(row, first, rest):
    """Within each four words, every word moves one place down, the first to the end."""
    return (row & rest) >> 64 | (row & first) << 192


def _turn_two(row, first, rest):
    low = first | first << 64
    return (row >> 128) & low | (row & low) << 128


def _turn_three(row, first, rest):
    return (row & rest >> 64) << 64 | (row >> 192) & first


def keystream(key, nonce, counter, blocks):
    """`blocks` times 64 bytes; the block counter rolls over at 32 bits."""
    if blocks < 1:
        return b""
    mask, first, rest = _masks(blocks)
    nonce_words = struct.unpack("<3I", nonce)
    last_row = []
    for block in range(blocks):
        last_row += [(counter + block) & WORD, *nonce_words]
    start = (
        _row(list(CONSTANTS) * blocks),
        _row(list(struct.unpack("<4I", key[:16])) * blocks),
        _row(list(struct.unpack("<4I", key[16:])) * blocks),
        _row(last_row),
    )
    a, b, c, d = start
    for _ in range(10):
        a, b, c, d = _quarter_rounds(a, b, c, d, mask)
        b, c, d = _turn_one(b, first, rest), _turn_two(c, first, rest), _turn_three(d, first, rest)
        a, b, c, d = _quarter_rounds(a, b, c, d, mask)
        b, c, d = _turn_three(b, first, rest), _turn_two(c, first, rest), _turn_one(d, first, rest)
    return _serialise([(x + y) & mask for x, y in zip((a, b, c, d), start)], blocks)


def _serialise(rows, blocks):
    form = "<%dQ" % (4 * blocks)
    a, b, c, d = (struct.unpack(form, le(row, 32 * blocks)) for row in rows)
    words = []
    for at in range(0, 4 * blocks, 4):
        words += a[at:at + 4] + b[at:at + 4] + c[at:at + 4] + d[at:at + 4]
    return struct.pack("<%dI" % len(words), *words)


def chacha20_block(key, counter, nonce):
    return keystream(key, nonce, counter, 1)


def poly1305(key, message):
    r = number(key[:16]) & CLAMP
    total = 0
    for at in range(0, len(message), 16):
        total = (total + number(message[at:at + 16] + b"\x01")) * r % PRIME
    return le(total + number(key[16:32]), 16)


def xor(one, other):
    """Two byte strings of one length, bit by bit."""
    return (number(one) ^ number(other)).to_bytes(len(one), "little")
