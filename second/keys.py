"""Keys, pads, tags and hashes, each after its line of document 01 or 02."""

from functools import lru_cache

from aes import counter_stream
from layout import AES
from primitives import blake2s, keystream, le, poly1305


def nugget_key(secret, salt, nugget):
    return blake2s(secret, b"N" + salt + le(nugget, 4))


# The tag key's letter, by version.
LETTER = {1: b"F", 2: b"G"}


def tag_key(version, key, flake, keycount):
    return blake2s(key, LETTER[version] + le(flake, 2) + le(keycount, 8))


def old_check(old, salt, epoch):
    return blake2s(old, b"O" + salt + le(epoch, 2))


def seal(present, head72, node1):
    return blake2s(present, b"H" + head72 + node1)


@lru_cache(maxsize=8192)
def pad(key, keycount, flake, size, cipher=0):
    """The pad of a flake under a nugget key, by the volume's cipher."""
    if cipher == AES:
        return counter_stream(key, keycount, flake * size // 16, size // 16)
    return keystream(key, bytes(4) + le(keycount, 8), flake * size // 64, size // 64)


def padded(data):
    """RFC 8439 2.8: zeros behind it, up to a multiple of 16."""
    return data + bytes(-len(data) % 16)


def laid_out(named, text):
    """RFC 8439 2.8: what Poly1305 is given of associated data and text."""
    return padded(named) + padded(text) + le(len(named), 8) + le(len(text), 8)


def tag(version, key, nugget, keycount, flake, stored):
    """Poly1305 over the stored bytes, never over the contents; from version 2 on it names what it covers."""
    if version != 1:
        stored = laid_out(le(nugget, 4) + le(flake, 2) + le(keycount, 8), stored)
    return poly1305(tag_key(version, key, flake, keycount), stored)
