"""What a host needs beside the calls: lengths of a shape, and the lines that it prints."""

import audit
import calls
import sheet
from answers import ACCEPTED, Answer, Place
from drive import first_tests
from layout import layout, shape_in_limits
from nuggets import path_answer
from primitives import number

KINDS = range(1, 5)


def length(n, p, f, version):
    """A version that isn't known is out of limits."""
    return layout(n, p, f, version).length if shape_in_limits(n, p, f, version) else 0


def capacity(n, p, f):
    return n * p * f if shape_in_limits(n, p, f) else 0


def ended(text):
    return text.encode("ascii") + b"\n"


def refusal_line(image):
    """The line of an answer's image; nothing if it tells no refusal."""
    said, kind, first, second = (number(image[at:at + 4]) for at in range(0, 16, 4))
    if sheet.class_of(said) is None or (said == 7 and kind not in KINDS):
        return b""
    return ended(sheet.refusal_line(Answer(said, Place(kind, first, second))))


def sheet_line(drive, volume):
    """The answer and the line."""
    told = calls.report(drive, volume)
    refused = told.answer.number
    return told.answer, ended(sheet.refusal_line(told.answer) if refused else sheet.report_line(told.report))


def nugget_tests(drive, volume, n):
    """1, 2, 7 head, 8, 7 path."""
    return first_tests(drive, volume) or (path_answer(volume, drive, n) if n < drive.n else Answer(8))


def nugget_line(drive, volume, n):
    """The answer and the line."""
    bad = nugget_tests(drive, volume, n)
    if bad:
        return bad, ended(sheet.refusal_line(bad))
    return ACCEPTED, ended(audit.nugget_line(drive, volume, n))
