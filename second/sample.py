"""Makes an input for the sheet: three nuggets, one moved, two flakes present.

Run: python3 second/sample.py FILE
"""

import sys

import calls
from layout import layout
from primitives import le

OLD, NEW, SALT = bytes(range(32)), bytes(range(32, 64)), bytes(range(64, 80))


def sample(version=1):
    """The sheet's standard input: present secret, old secret, outside counter, volume."""
    lay = layout(3, 2, 64, version)
    now = calls.format(bytes(lay.length), 3, 2, 64, SALT, OLD, 0, version)
    now = calls.write(now.drive, now.volume, lay.f, b"the first of two flakes")
    now = calls.write(now.drive, now.volume, 4 * lay.f, b"the second of two flakes")
    now = calls.begin(now.drive, now.volume, NEW)
    now = calls.sweep(now.drive, now.volume, 0)
    return NEW + OLD + le(now.drive.counter, 8) + now.volume


def main(arguments):
    if len(arguments) != 1:
        print("usage: python3 second/sample.py FILE", file=sys.stderr)
        return 2
    with open(arguments[0], "wb") as out:
        out.write(sample())
    return 0


if __name__ == "__main__":
    sys.exit(main(sys.argv[1:]))
