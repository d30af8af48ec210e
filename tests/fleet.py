"""The fleet's line against the second program's: thousands of inputs through the C interface, dozens through the built program.

Lines of real reports; each byte of a line changed; leading zeros, carriage returns, spaces, empty lines; numbers at and past what
a volume can hold, and far past 64 bits; 255 to 258 lines; ties; fractions that round to one share; no newline at the end; no
input. NGT_SEED sets the seed; a failure prints it with the smallest case.
"""
import ctypes
import random
import sys

import inputs
from proved import SEED, Tally, left, library, room

import calls
import fleet
import sheet
from checks.make import SALT
from layout import layout

ROOM, REPORTS = 192, 120
NUMBERS = (0, 1, 9, 10, 63, 64, 65, 16383, 16384, 16385, 2**20, 2**20 + 1, 2**21 - 1, 2**21, 2**32 - 1, 2**32, 2**32 + 1, 2**64, 10**20)
CHANGED = b"0123456789 \n\r\t=.-+nN\0\xff"
SHOWN = [b"open=0\n", b"open=1\n", b"open=2\n", b"open=257\n", b"drives=1 ", b"drives=256 ", b"share=100.00", b"share=99.99", b"share=0.00",
         b" last=256\n"]


def line_of(*numbers):
    return sheet.report_line(fleet.counted(*numbers)).encode("ascii")


def some_counts(source):
    """Numbers that a volume can give, at their edges in every other case."""
    nuggets = source.choice((1, 2, 3, 16384, source.randint(1, 16384)))
    moved = source.choice((0, nuggets, nuggets - 1, source.randint(0, nuggets)))
    done = source.choice((0, 64 * moved, source.randint(0, 64 * moved)))
    others = 64 * (nuggets - moved)
    return nuggets, moved, done + source.choice((0, others, source.randint(0, others))), done


def real_report(source):
    """The line of a drive with a history, of either version."""
    n, p, version = source.randint(1, 9), source.choice((1, 2, 64)), source.choice((1, 2))
    now = calls.format(bytes(layout(n, p, 64, version).length), n, p, 64, SALT, source.randbytes(32), 0, version)
    for _ in range(source.randrange(6)):
        now = calls.write(now.drive, now.volume, source.randrange(n * p * 64), b"x")
        if source.randrange(4) == 0:
            now = calls.discard(now.drive, now.volume, source.randrange(n), 0, p)
    if source.randrange(4):
        now = calls.begin(now.drive, now.volume, source.randbytes(32))
        for nugget in source.sample(range(n), source.randint(0, n)):
            now = calls.sweep(now.drive, now.volume, nugget)
    return sheet.report_line(calls.report(now.drive, now.volume).report).encode("ascii")


def spoilt(source, line):
    """The line with one thing changed; now and then what is changed makes no difference to the rule."""
    at = source.randrange(len(line))
    byte = bytes([source.choice(CHANGED)])
    number = b"%d" % source.choice(NUMBERS)
    fields = line.split(b" ")
    k = source.randrange(len(fields))
    name, equals, value = fields[k].partition(b"=")
    other = b" ".join(fields[:k] + [name + equals + number] + fields[k + 1:])
    zero = b" ".join(fields[:k] + [name + equals + b"0" + value] + fields[k + 1:])
    return source.choice((line[:at] + byte + line[at + 1:], line[:at] + byte + line[at:], line[:at] + line[at + 1:], line[:at], other, other, zero,
                          line + b"\r", line + b" ", b" " + line, line + b"0", line + b"0" * 200, b" ".join(fields[:k] + fields[k + 1:]),
                          b" ".join(fields[::-1]), line.upper(), line * 2, source.randbytes(at), b"",
                          b"refused=%d class=form" % (at % 17)))


def joined(source, lines):
    """One line after the other; the last may lack its newline."""
    return b"\n".join(lines) + source.choice((b"\n", b"\n", b"", b"\n\n"))


def each_change(source):
    """Every byte of a line in turn, to each of these."""
    for line in (line_of(3, 1, 2, 1), line_of(16384, 16384, 1048576, 1048576), line_of(7, 7, 0, 0), real_report(source)):
        for at in range(len(line)):
            for byte in CHANGED:
                yield "a byte changed", line[:at] + bytes([byte]) + line[at + 1:] + b"\n"
    for columns in range(2000):
        numbers = [source.choice(NUMBERS + (2, 3, 127, 128, 129)) for _ in range(6)]
        text = b"nuggets=%d moved=%d left=%d flakes=%d share=%s done=%d" % (
            *numbers[:4], source.choice((b"100.00", b"0.00", b"99.99", b"50.00")), numbers[5])
        yield f"columns {columns}", text + b"\n"


def edges(source):
    """Each number at its bound and one past it, in a line spelt as the sheet would spell it."""
    for case in range(60):
        nuggets = source.choice((1, 2, 16383, 16384, source.randint(1, 16384)))
        moved = source.choice((0, nuggets, source.randint(0, nuggets)))
        most, rest = 64 * moved, 64 * (nuggets - moved)
        done = source.choice((0, most, source.randint(0, most)))
        for past in (0, 1):
            yield f"nuggets, case {case}, {past} past", line_of(16384 + past, moved, done, done) + b"\n"
            yield f"done, case {case}, {past} past", line_of(nuggets, moved, most + past + rest, most + past) + b"\n"
            yield f"the rest, case {case}, {past} past", line_of(nuggets, moved, done + rest + past, done) + b"\n"
            if done:
                yield f"done of flakes, case {case}, {past} past", line_of(nuggets, moved, done - past, done) + b"\n"


def many_lines(source):
    """Around 256 lines, and an input that goes on far behind them."""
    for count in (255, 256, 257, 258, 300):
        lines = [line_of(*some_counts(source)) for _ in range(count)]
        yield f"{count} lines", b"\n".join(lines) + b"\n"
        yield f"{count} lines, the last without its newline", b"\n".join(lines)
        yield f"{count} lines and garbage", b"\n".join(lines) + b"\n" + source.randbytes(40000)
        for k in (1, 2, 255, 256, 257):
            if k <= count:
                bad = lines[:k - 1] + [spoilt(source, lines[k - 1])] + lines[k:]
                yield f"{count} lines, one changed at {k}", b"\n".join(bad) + b"\n"
    full = line_of(16384, 16384, 1048576, 1048576)
    yield "the greatest totals", (full + b"\n") * 256
    yield "the least in the last line", (full + b"\n") * 255 + line_of(16384, 0, 1048576, 0)
    yield "nothing left anywhere", (line_of(1, 1, 0, 0) + b"\n") * 256
    yield "no newline in 40,000 bytes", b"n" * 40000
    yield "40,000 newlines", b"\n" * 40000


def ties(source):
    """Equal fractions, and fractions that only rounding makes equal."""
    for case in range(200):
        k = source.randint(1, 213)
        alike = [line_of(10 * m, 10 * m, 3 * m * k, 3 * m * k) if source.randrange(9) == 0 else line_of(100 * m, 50 * m, 2 * m * k, m * k)
                 for m in (source.randint(1, 9) for _ in range(source.randint(1, 6)))]
        near = [line_of(16384, 8192, total, total // 2 - source.randrange(2)) for total in (source.randint(20000, 1000000) for _ in range(4))]
        lines = alike + near
        source.shuffle(lines)
        yield f"ties, case {case}", joined(source, lines)


def mixed(source, count):
    reports = [real_report(source) for _ in range(REPORTS)]
    for case in range(count):
        lines = [source.choice((line_of(*some_counts(source)), source.choice(reports))) for _ in range(source.randint(1, 8))]
        if source.randrange(2):
            k = source.randrange(len(lines))
            lines[k] = spoilt(source, lines[k])
        yield f"lines, case {case}", joined(source, lines)
    yield "no input", b""
    yield "one newline", b"\n"
    yield "a NUL", b"\0"


def through_c(tally):
    """Every input by ngt_fleet: the line, and the bytes behind it as they were."""
    proved = library("ngt")
    source = random.Random(f"{SEED} fleet")
    for make in (each_change(source), edges(source), many_lines(source), ties(source), mixed(source, 3000)):
        for name, data in make:
            given = source.randbytes(ROOM)
            out = room(given)
            said = proved.ngt_fleet(data, ctypes.c_size_t(len(data)), out)
            want = fleet.line(data)
            tally.same("fleet", name, (said, left(out)), (len(want), want + given[len(want):]), len(data))


def some(source):
    """For the built program: around 256 lines, and some of all the rest."""
    yield from many_lines(source)
    for make in (each_change, edges, ties, lambda source: mixed(source, 40)):
        every = list(make(source))
        yield from source.sample(every, min(len(every), 40))
    yield "no input", b""
    yield "an empty first line", b"\n"
    yield "a bad second line", line_of(1, 1, 0, 0) + b"\n\n"
    yield "the least of 256 in the last line", (line_of(2, 2, 1, 1) + b"\n") * 255 + line_of(2, 1, 0, 0)


def main():
    tally = Tally()
    through_c(tally)
    if tally.failed:
        sys.exit(tally.close())
    inputs.compare("fleet", fleet.line, some, SHOWN, tally.passed)


main()
