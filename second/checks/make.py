"""A volume made from scratch after document 01's tables, for the checks.

It doesn't use the program's own keys, tags, tree or head, so that a slip there shows.
"""

import hashlib
import struct
from functools import lru_cache
from typing import NamedTuple

from aes import enciphered
from drive import Drive
from primitives import keystream, poly1305

SALT = bytes(range(100, 116))
PRESENT, OLD, OTHER = b"\x01" * 32, b"\x02" * 32, b"\x03" * 32


def h(message, key=b""):
    return hashlib.blake2s(message, key=key, digest_size=32).digest()


@lru_cache(maxsize=65536)
def pad_of(secret, salt, nugget, keycount, flake, f, cipher=0):
    key = h(b"N" + salt + struct.pack("<I", nugget), secret)
    if cipher == 16:
        first = flake * (f // 16)
        return b"".join(enciphered(key, struct.pack(">QQ", keycount, first + j)) for j in range(f // 16))
    return keystream(key, struct.pack("<IQ", 0, keycount), flake * (f // 64), f // 64)


@lru_cache(maxsize=65536)
def tag_of(version, secret, salt, nugget, keycount, flake, stored):
    key = h(b"N" + salt + struct.pack("<I", nugget), secret)
    parts = struct.pack("<HQ", flake, keycount)
    if version == 1:
        return poly1305(h(b"F" + parts, key), stored)
    whole = struct.pack("<IHQ2x", nugget, flake, keycount) + stored + struct.pack("<QQ", 14, len(stored))
    return poly1305(h(b"G" + parts, key), whole)


def mixed(text, pad):
    return bytes(a ^ b for a, b in zip(text, pad))


def some_text(nugget, flake, f):
    return (h(struct.pack("<IH", nugget, flake)) * (f // 32))[:f]


class Spec(NamedTuple):
    """What a volume shall hold. A record is a list: keycount, spent, held, epoch; or three of them, with one mask for both.
    `ghosts` are flakes that aren't held but were: secret, keycount and contents by nugget and flake."""
    n: int
    p: int
    f: int
    state: int
    epoch: int
    counter: int
    records: list
    present: bytes = PRESENT
    old: bytes = OLD
    text: object = some_text
    node1: bytes = None
    check: bytes = None
    salt: bytes = SALT
    version: int = 1
    ghosts: dict = {}
    cipher: int = 0


def full(record):
    """Keycount, spent, held, epoch."""
    return [*record[:-1], *record[1:]] if len(record) == 3 else list(record)


def record_bytes(version, record):
    keycount, spent, held, epoch = full(record)
    masks = [held] if version == 1 else [spent, held]
    return struct.pack(f"<{1 + len(masks)}QH", keycount & 2**64 - 1, *masks, epoch)


def width(version):
    return 18 if version == 1 else 26


def power(n):
    l = 1
    while l < n:
        l *= 2
    return l


def tree_of(spec, records, tags):
    l = power(spec.n)
    nodes = [bytes(32)] * (2 * l)
    wide = width(spec.version)
    for n in range(spec.n):
        mine = tags[16 * spec.p * n:16 * spec.p * (n + 1)]
        nodes[l + n] = h(b"L" + struct.pack("<I", n) + records[wide * n:wide * n + wide] + mine)
    for i in range(l - 1, 0, -1):
        nodes[i] = h(b"T" + nodes[2 * i] + nodes[2 * i + 1])
    if spec.node1 is not None:
        nodes[1] = spec.node1
    return nodes[1:]


def head_of(spec, node1):
    check = bytes(32)
    if spec.state == 1:
        check = h(b"O" + spec.salt + struct.pack("<H", spec.epoch), spec.old)
    if spec.check is not None:
        check = spec.check
    front = struct.pack("<3sHBHIHH16sQ32s", b"NGT", spec.version, spec.state + spec.cipher, spec.epoch, spec.n,
                        spec.p, spec.f, spec.salt, spec.counter, check)
    return front + h(b"H" + front + node1, spec.present)


def made(spec):
    """The drive and the volume of a spec. Absent flakes have zero tags and zero bytes, but for ghosts."""
    records, tags, flakes = b"", [], []
    for n, record in enumerate(spec.records):
        records += record_bytes(spec.version, record)
        keycount, _, held, epoch = full(record)
        secret = spec.present if epoch == spec.epoch else spec.old
        for f in range(spec.p):
            stored, tag = bytes(spec.f), bytes(16)
            lies = (secret, keycount, spec.text(n, f, spec.f)) if held >> f & 1 else spec.ghosts.get((n, f))
            if lies:
                pad = pad_of(lies[0], spec.salt, n, lies[1], f, spec.f, spec.cipher)
                stored = mixed(lies[2], pad)
                tag = tag_of(spec.version, lies[0], spec.salt, n, lies[1], f, stored)
            flakes.append(stored)
            tags.append(tag)
    nodes = tree_of(spec, records, b"".join(tags))
    volume = head_of(spec, nodes[0]) + records + b"".join(tags + nodes + flakes)
    changing = spec.state == 1
    drive = Drive(spec.n, spec.p, spec.f, spec.salt, spec.state, spec.epoch - 1 if changing else 0,
                  spec.epoch, spec.counter, nodes[0], spec.present,
                  spec.old if changing else bytes(32), spec.version, spec.cipher)
    return drive, volume


def flipped(volume, at, bit=0):
    return volume[:at] + bytes([volume[at] ^ 1 << bit]) + volume[at + 1:]
