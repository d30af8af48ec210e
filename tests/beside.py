"""The proved library's calls beside the second program's: every call made of one is made of both, and held equal.

Compared are the answer, its number, the drive's image, the volume, and what the call fills; whatever a call only reads is
compared too, since it must stay as it was.
"""
import collections
import ctypes
import struct
import sys
import zlib

from proved import ROOT, left, room

sys.path.insert(0, str(ROOT / "second"))
import calls  # noqa: E402
import moving  # noqa: E402
from drive import STEADY  # noqa: E402

U8, U16, U32, U64, SIZE = ctypes.c_uint8, ctypes.c_uint16, ctypes.c_uint32, ctypes.c_uint64, ctypes.c_size_t
NAMES = ("format", "mount", "read", "write", "queue", "export", "take_in", "begin", "sweep", "finish", "discard", "report", "stored_flake")
MOVES = ("up", "down")


def given_image(drive):
    """The drive's image, in every other case with junk in the four bytes that mean nothing."""
    image = bytearray(drive.image())
    mixed = zlib.crc32(image)
    if mixed & 1:
        image[20:24] = struct.pack("<I", mixed)
    return bytes(image)


def left_image(given, drive, want):
    """Where the drive comes back as given no byte is stored. A change stores the image anew, zeros where nothing is meant."""
    if want.drive == drive:
        return given
    return (want.drive._replace(leaving=0) if want.drive.state == STEADY else want.drive).image()


class Beside:
    """Puts itself before the second program's calls. `met` counts what was compared, by call, number and kind of place."""

    def __init__(self, proved, tally):
        self.proved, self.tally, self.met = proved, tally, collections.Counter()
        for module, names in ((calls, NAMES), (moving, MOVES)):
            for name in names:
                setattr(module, name, self.both(name, getattr(module, name), getattr(self, name)))

    def both(self, name, second, mine):
        def call(*words):
            want = second(*words)
            got, wanted = mine(want, *words)
            said = want.answer
            self.met[name, said.number, said.place.kind] += 1
            size = sum(len(word) for word in words if isinstance(word, bytes))
            self.tally.same(name, words, got, (said.number, said.image(), *wanted), size)
            return want
        return call

    def format(self, want, volume, n, p, f, salt, secret, outside, *under):
        """With no version named it is `ngt_format`."""
        vol, image, answer = room(volume), room(size=144), room(size=16)
        numbers = vol, SIZE(len(volume)), U32(n), U32(p), U32(f)
        rest = salt, secret, U64(outside), image, answer
        if under:
            version, cipher = (*under, 0)[:2]
            said = self.proved.ngt_format_as(*numbers, U16(version), U8(cipher), *rest)
        else:
            said = self.proved.ngt_format(*numbers, *rest)
        return (said, left(answer), left(image), left(vol)), (want.drive.image(), want.volume)

    def mount(self, want, volume, present, old, outside):
        vol, image, answer = room(volume), room(size=144), room(size=16)
        said = self.proved.ngt_mount(vol, SIZE(len(volume)), present, old, U64(outside), image, answer)
        return (said, left(answer), left(image), left(vol)), (want.drive.image(), want.volume)

    def on_drive(self, call, drive, volume, values, filled=()):
        """The image given; then what a call on a drive left, with what it filled."""
        given = given_image(drive)
        image, vol, answer = room(given), room(volume), room(size=16)
        said = call(image, vol, SIZE(len(volume)), *values, answer)
        return given, (said, left(answer), left(image), left(vol), *(left(part) for part in filled))

    def changes(self, call, want, drive, volume, *values):
        given, got = self.on_drive(call, drive, volume, values)
        return got, (left_image(given, drive, want), want.volume)

    def read(self, want, drive, volume, offset, buffer):
        mine = room(buffer)
        given, got = self.on_drive(self.proved.ngt_read, drive, volume, (U64(offset), mine, SIZE(len(buffer))), [mine])
        return got, (given, volume, want.buffer)

    def report(self, want, drive, volume):
        mine = room(size=20)
        given, got = self.on_drive(self.proved.ngt_report, drive, volume, [mine], [mine])
        return got, (given, volume, struct.pack("<5I", *want.report[:5]))

    def stored_flake(self, want, drive, volume, nugget, flake):
        mine = room(size=16)
        given, got = self.on_drive(self.proved.ngt_stored_flake, drive, volume, (U32(nugget), U32(flake), mine), [mine])
        return got, (given, volume, struct.pack("<QQ", *want.span))

    def write(self, want, drive, volume, offset, data):
        return self.changes(self.proved.ngt_write, want, drive, volume, U64(offset), bytes(data), SIZE(len(data)))

    def queue(self, want, drive, volume, image, data):
        done = room(size=8)
        values = bytes(image), SIZE(len(image)), bytes(data), SIZE(len(data)), done
        given, got = self.on_drive(self.proved.ngt_queue, drive, volume, values, [done])
        return got, (left_image(given, drive, want), want.volume, struct.pack("<Q", want.done))

    def export(self, want, drive, volume, data, tweak, buffer):
        mine = room(buffer)
        given, got = self.on_drive(self.proved.ngt_export, drive, volume, (data, tweak, mine, SIZE(len(buffer))), [mine])
        return got, (given, volume, want.buffer)

    def take_in(self, want, drive, volume, data, tweak, buffer):
        return self.changes(self.proved.ngt_import, want, drive, volume, data, tweak, bytes(buffer), SIZE(len(buffer)))

    def begin(self, want, drive, volume, secret):
        return self.changes(self.proved.ngt_begin, want, drive, volume, secret)

    def sweep(self, want, drive, volume, nugget):
        return self.changes(self.proved.ngt_sweep, want, drive, volume, U32(nugget))

    def finish(self, want, drive, volume):
        return self.changes(self.proved.ngt_finish, want, drive, volume)

    def discard(self, want, drive, volume, nugget, first, count):
        return self.changes(self.proved.ngt_discard, want, drive, volume, U32(nugget), U32(first), U32(count))

    def moves(self, call, want, drive, volume, second):
        mine = room(second)
        given, got = self.on_drive(call, drive, volume, (mine, SIZE(len(second))), [mine])
        return got, (left_image(given, drive, want), volume, want.buffer)

    def up(self, want, drive, volume, second):
        return self.moves(self.proved.ngt_move_up, want, drive, volume, second)

    def down(self, want, drive, volume, second):
        return self.moves(self.proved.ngt_move_down, want, drive, volume, second)
