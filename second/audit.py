"""The auditor's page. Run: python3 second/audit.py < input

The sheet's line; then, if the volume mounts, one line for each nugget, ascending, the outside counter, and whether the
old secret is still needed.
"""

import sys

import calls
import sheet
from layout import read_record
from primitives import number


def key_word(drive, record):
    """Which secret the nugget is under: one epoch less than the head's means the old one."""
    if record.epoch == drive.epoch:
        return "new" if drive.changing else "present"
    return "old"


def old_word(drive):
    """Every mount asks for the old secret until a finish is accepted, even with no nugget left."""
    return "needed" if drive.changing else "free"


def flakes_words(record, flakes):
    """The present flakes, ascending; a dash if there is none."""
    return ",".join(str(f) for f in range(flakes) if record.held >> f & 1) or "-"


def nugget_line(drive, volume, n):
    record = read_record(volume, drive.layout, n)
    return (f"nugget={n} key={key_word(drive, record)} epoch={record.epoch} "
            f"keycount={record.keycount} flakes={flakes_words(record, drive.p)}")


def lines(data):
    first = sheet.text(data)
    if not sheet.LEAST <= len(data) <= sheet.MOST:
        return [first]
    volume, outside = data[72:], number(data[64:72])
    mounted = calls.mount(volume, data[:32], data[32:64], outside)
    if mounted.answer.number:
        return [first]
    drive = mounted.drive
    return ([first] + [nugget_line(drive, volume, n) for n in range(drive.n)]
            + [f"counter={outside}", f"old={old_word(drive)}"])


def page(data):
    """The whole output for the bytes of standard input; each line ends in one newline."""
    return "".join(line + "\n" for line in lines(bytes(data))).encode("ascii")


if __name__ == "__main__":
    # One byte past the limit decides; an endless input mustn't be read to its end.
    sys.stdout.buffer.write(page(sys.stdin.buffer.read(sheet.MOST + 1)))
