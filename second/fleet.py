"""The fleet's sheet: drives' sheet lines to one line. Run: python3 second/fleet.py < lines"""

import re
import sys
from fractions import Fraction

from calls import Report, share_of
from layout import MOST_FLAKES, MOST_NUGGETS
from sheet import report_line

MOST_DRIVES = 256
NUMBERS = re.compile(rb"nuggets=(\d+) moved=(\d+) left=\d+ flakes=(\d+) share=[\d.]+ done=(\d+)", re.ASCII)
# No digit string is turned into a number before it is known to be short.
LONGEST = 127


def lines_of(data):
    """Each line ends in one newline; a last one without it counts."""
    lines = data.split(b"\n")
    return lines[:-1] if lines[-1] == b"" else lines


def counted(nuggets, moved, flakes, done):
    return Report(nuggets, moved, nuggets - moved, flakes, share_of(nuggets, moved, flakes, done), done)


def is_possible(nuggets, moved, flakes, done):
    """Whether a volume within the limits could have these numbers."""
    if not 1 <= nuggets <= MOST_NUGGETS or moved > nuggets or done > flakes:
        return False
    return done <= MOST_FLAKES * moved and flakes - done <= MOST_FLAKES * (nuggets - moved)


def report_of(line):
    """The report whose line this is, to the byte; None if no volume could give it."""
    found = NUMBERS.fullmatch(line) if len(line) <= LONGEST else None
    if not found:
        return None
    numbers = [int(digits) for digits in found.groups()]
    if not is_possible(*numbers):
        return None
    report = counted(*numbers)
    return report if report_line(report).encode("ascii") == line else None


def fraction(report):
    """Item 1's share before rounding and cap."""
    if report.flakes:
        return Fraction(report.done, report.flakes)
    return Fraction(report.moved, report.nuggets)


def closed(reports):
    total = counted(*(sum(column) for column in zip(*((r.nuggets, r.moved, r.flakes, r.done) for r in reports))))
    least = min(fraction(report) for report in reports)
    last = [fraction(report) for report in reports].index(least) + 1
    return f"drives={len(reports)} {report_line(total)} last={last}"


def text(data):
    reports = []
    for number, line in enumerate(lines_of(data), 1):
        report = report_of(line) if number <= MOST_DRIVES else None
        if report is None:
            return f"open={number}"
        reports.append(report)
    return closed(reports) if reports else "open=0"


def line(data):
    """The whole output for the bytes of standard input, with its one newline."""
    return text(bytes(data)).encode("ascii") + b"\n"


if __name__ == "__main__":
    # 256 lines that are taken and one byte more decide; an endless input mustn't be read to its end.
    sys.stdout.buffer.write(line(sys.stdin.buffer.read(MOST_DRIVES * (LONGEST + 1) + 1)))
