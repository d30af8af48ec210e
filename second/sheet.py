"""The sheet's line. Run: python3 second/sheet.py < input"""

import sys

import calls
from primitives import number

LEAST, MOST = 72, 72 + 61440


def class_of(answer_number):
    """The class of an answer; None for a number that is none: 14 is given to no answer."""
    for last, name in ((0, None), (3, "form"), (6, "key"), (7, "altered"), (12, "request"),
                       (13, "spent"), (14, None), (15, "spent"), (16, "request")):
        if answer_number <= last:
            return name
    return None


def refusal_line(answer):
    """The line of a refusal without its newline."""
    words = f"refused={answer.number} class={class_of(answer.number)}"
    return words + (f" place={answer.place.words()}" if answer.number == 7 else "")


def share_words(share):
    return f"{share // 100}.{share % 100:02d}"


def report_line(report):
    return (f"nuggets={report.nuggets} moved={report.moved} left={report.left} "
            f"flakes={report.flakes} share={share_words(report.share)} done={report.done}")


def text(data):
    if not LEAST <= len(data) <= MOST:
        return refusal_line(calls.Answer(2))
    mounted = calls.mount(data[72:], data[:32], data[32:64], number(data[64:72]))
    if mounted.answer.number:
        return refusal_line(mounted.answer)
    told = calls.report(mounted.drive, data[72:])
    return refusal_line(told.answer) if told.answer.number else report_line(told.report)


def line(data):
    """The whole output for the bytes of standard input, with its one newline."""
    return text(bytes(data)).encode("ascii") + b"\n"


if __name__ == "__main__":
    # One byte past the limit decides; an endless input mustn't be read to its end.
    sys.stdout.buffer.write(line(sys.stdin.buffer.read(MOST + 1)))
