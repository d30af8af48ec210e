"""One nugget: the flakes a range touches, its tests, its enciphering."""

from typing import NamedTuple

import keys
import tree
from answers import FLAKE, Place, altered
from layout import TAG, Record, read_record
from primitives import xor


class Piece(NamedTuple):
    """Bytes start to start + length of a flake are the caller's bytes from taken on."""
    flake: int
    start: int
    taken: int
    length: int


class Pad(NamedTuple):
    """One entry of the list of encipherings, with the secret that was used."""
    nugget: int
    keycount: int
    flake: int
    secret: bytes


def touched(lay, offset, length):
    """The pieces of a range, nugget by nugget, ascending."""
    found = {}
    at, end = offset, offset + length
    while at < end:
        nugget, flake, start = lay.position(at)
        step = min(lay.f - start, end - at)
        found.setdefault(nugget, []).append(Piece(flake, start, at - offset, step))
        at += step
    return found


def needs_rekey(record, epoch, flakes):
    """T is held against the spent flakes: a pad that was used isn't used again."""
    return record.epoch != epoch or any(record.spent >> f & 1 for f in flakes)


def secret_of(drive, record):
    """The epoch of a record says which secret its nugget is under."""
    return drive.present if record.epoch == drive.epoch else drive.old


def key_of(drive, record, n):
    return keys.nugget_key(secret_of(drive, record), drive.salt, n)


def stored_bytes(volume, lay, n, f):
    at = lay.flake_at(n, f)
    return bytes(volume[at:at + lay.f])


def contents(volume, drive, n, f):
    """The contents of a flake; an absent one reads as zero."""
    lay = drive.layout
    record = read_record(volume, lay, n)
    if not record.held >> f & 1:
        return bytes(lay.f)
    pad = keys.pad(key_of(drive, record, n), record.keycount, f, lay.f, drive.cipher)
    return xor(stored_bytes(volume, lay, n, f), pad)


def flakes_test(volume, drive, n, flakes):
    """The first of the given flakes whose tag isn't that of its stored bytes, or None."""
    lay = drive.layout
    record = read_record(volume, lay, n)
    key = key_of(drive, record, n)
    for f in flakes:
        at = lay.tag_at(n, f)
        made = keys.tag(lay.version, key, n, record.keycount, f, stored_bytes(volume, lay, n, f))
        if made != volume[at:at + TAG]:
            return Place(FLAKE, n, f)
    return None


def path_answer(volume, drive, n):
    return altered(tree.path_test(volume, drive.layout, drive.head, n))


def read_tests(volume, drive, n, flakes):
    bad = path_answer(volume, drive, n)
    if bad:
        return bad
    here = read_record(volume, drive.layout, n).present()
    return altered(flakes_test(volume, drive, n, [f for f in flakes if f in here]))


def rekey_tests(volume, drive, n):
    """All flakes held. The path passed and 13 wasn't due, so the keycount isn't at its top."""
    return altered(flakes_test(volume, drive, n, read_record(volume, drive.layout, n).present()))


def write_tests(volume, drive, n, flakes):
    bad = path_answer(volume, drive, n)
    if bad:
        return bad
    record = read_record(volume, drive.layout, n)
    if needs_rekey(record, drive.epoch, flakes):
        return rekey_tests(volume, drive, n)
    return None


def encipher(work, drive, n, keycount, texts):
    """Stores each text's bytes and tag under the present secret. Returns the pads listed."""
    lay = drive.layout
    key = keys.nugget_key(drive.present, drive.salt, n)
    listed = []
    for f in sorted(texts):
        stored = xor(texts[f], keys.pad(key, keycount, f, lay.f, drive.cipher))
        at, tag_at = lay.flake_at(n, f), lay.tag_at(n, f)
        work[at:at + lay.f] = stored
        work[tag_at:tag_at + TAG] = keys.tag(lay.version, key, n, keycount, f, stored)
        listed.append(Pad(n, keycount, f, drive.present))
    return listed


def change(work, drive, n, pieces, data):
    """Writes the pieces into nugget n of a bytearray; with no piece it's a sweep's rekey."""
    lay = drive.layout
    record = read_record(work, lay, n)
    flakes = {piece.flake for piece in pieces}
    rekey = needs_rekey(record, drive.epoch, flakes)
    fresh = flakes.union(record.present()) if rekey else flakes
    texts = {f: bytearray(contents(work, drive, n, f)) for f in fresh}
    for piece in pieces:
        part = data[piece.taken:piece.taken + piece.length]
        texts[piece.flake][piece.start:piece.start + piece.length] = part
    keycount = record.keycount + 1 if rekey else record.keycount
    listed = encipher(work, drive, n, keycount, texts)
    mask = sum(1 << f for f in fresh)
    masks = (mask, mask) if rekey else (record.spent | mask, record.held | mask)
    store_record(work, lay, n, Record(keycount, *masks, drive.epoch))
    return listed


def store_record(work, lay, n, record):
    """Record n of a bytearray, with its leaf and path."""
    work[lay.record_at(n):lay.record_at(n + 1)] = record.stored(lay.version)
    tree.renew(work, lay, n)
