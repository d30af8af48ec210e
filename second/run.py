"""Runs a script of calls. Run: python3 second/run.py SCRIPT   (the README has the format)
or: python3 second/run.py -c 'LINE; LINE; ..'

A line that isn't understood gets a refusal line, changes nothing, and the script goes on;
the exit status is then 1.
"""

import hashlib
import sys

import calls
import moving
from drive import BLANK

MOST_BYTES = 64 << 20
WIDTHS = {"u8": 2**8, "u16": 2**16, "u32": 2**32, "u64": 2**64, "size": MOST_BYTES + 1, "bit": 8}


class Misread(Exception):
    """A script line that can't be understood."""


def value(word, kind):
    """A number in decimal or 0x hex; bytes as hex, or HEX*COUNT for a repetition."""
    if kind in WIDTHS:
        try:
            got = int(word, 16) if word[:2] == "0x" else int(word)
        except ValueError:
            raise Misread(f"not a number: {word[:40]}") from None
        if not 0 <= got < WIDTHS[kind]:
            raise Misread(f"number out of range: {word[:40]}")
        return got
    if kind == "name":
        return word
    digits, star, times = word.partition("*")
    count = value(times, "size") if star else 1
    try:
        once = b"" if digits == "-" else bytes.fromhex(digits)
    except ValueError:
        raise Misread(f"not hex bytes: {word[:40]}") from None
    if len(once) * count > MOST_BYTES:
        raise Misread("too many bytes")
    got = once * count
    if kind != "bytes" and len(got) != kind:
        raise Misread(f"{kind} bytes expected, {len(got)} given")
    return got


class Machine:
    """The volume as last left, the drive as last returned, and images kept by name."""

    def __init__(self):
        self.volume, self.drive, self.kept = b"", BLANK, {}

    def flip(self, at, bit):
        if at >= len(self.volume):
            raise Misread("no such byte in the volume")
        changed = bytes([self.volume[at] ^ 1 << bit])
        self.volume = self.volume[:at] + changed + self.volume[at + 1:]

    def back(self, name):
        if name not in self.kept:
            raise Misread(f"nothing kept as {name[:40]}")
        self.volume = self.kept[name]

    def blank(self, length):
        self.volume = bytes(length)

    def keep(self, name):
        self.kept[name] = self.volume

    def move(self, call, length):
        """Into a second buffer of that length, which becomes the volume if the move is accepted."""
        result = call(self.drive, self.volume, bytes(length))
        self.drive = result.drive
        self.volume = self.volume if result.answer.number else result.buffer
        return result._replace(volume=self.volume)

    def call(self, name, values):
        """Makes a call and takes over what it leaves."""
        if name in ("up", "down"):
            return self.move(getattr(moving, name), *values)
        if name in ("format", "format_as", "mount"):
            result = getattr(calls, name[:6])(self.volume, *values)
        else:
            if name in ("read", "export"):
                values = [*values[:-1], bytes(values[-1])]
            result = getattr(calls, name)(self.drive, self.volume, *values)
        self.volume, self.drive = result.volume, result.drive
        return result


CALLS = {
    "format": ("u32", "u32", "u32", 16, 32, "u64"),
    "format_as": ("u32", "u32", "u32", 16, 32, "u64", "u16", "u8"),
    "mount": (32, 32, "u64"),
    "read": ("u64", "size"),
    "write": ("u64", "bytes"),
    "queue": ("bytes", "bytes"),
    "export": (32, 32, "size"),
    "take_in": (32, 32, "bytes"),
    "begin": (32,),
    "sweep": ("u32",),
    "finish": (),
    "discard": ("u32", "u32", "u32"),
    "up": ("size",),
    "down": ("size",),
    "report": (),
    "stored_flake": ("u32", "u32"),
}
STEPS = {"volume": ("size",), "flip": ("size", "bit"), "keep": ("name",), "back": ("name",)}


def short(data):
    return hashlib.blake2s(data, digest_size=4).hexdigest()


def told(name, result):
    """The line of a call that was made."""
    answer = result.answer
    words = [name, f"answer={answer.number}", f"place={answer.place.words() or '-'}"]
    if answer.number == 11:
        words.append(f"left={answer.left}")
    if answer.number == 16:
        words.append(f"nugget={answer.nugget}")
    words += [f"counter={result.drive.counter}", f"drive={short(result.drive.image())}",
              f"volume={short(result.volume)}"]
    pads = [f"{pad.nugget}/{pad.keycount}/{pad.flake}/{short(pad.secret)}" for pad in result.pads]
    words.append("pads=" + (",".join(pads) or "-"))
    if name == "queue":
        words.append(f"done={result.done}")
    if name in ("read", "export") and not answer.number:
        words.append(f"bytes={result.buffer.hex()}")
    if name == "report" and not answer.number:
        words.append("report=" + ",".join(str(number) for number in result.report))
    if name == "stored_flake" and not answer.number:
        words.append(f"span={result.span[0]}+{result.span[1]}")
    return " ".join(words)


def step(machine, words):
    """Obeys one line; gives what to print, or None for a step that is no call."""
    name = words[0]
    kinds = CALLS.get(name) if name in CALLS else STEPS.get(name)
    if kinds is None:
        raise Misread(f"unknown word: {name[:40]}")
    if len(words) - 1 != len(kinds):
        raise Misread(f"{name} takes {len(kinds)} values, {len(words) - 1} given")
    values = [value(word, kind) for word, kind in zip(words[1:], kinds)]
    if name in CALLS:
        return told(name, machine.call(name, values))
    {"volume": machine.blank, "flip": machine.flip, "keep": machine.keep,
     "back": machine.back}[name](*values)
    return None


def run(text):
    """The lines that a script prints, and whether every line was understood."""
    machine, lines, good = Machine(), [], True
    for at, line in enumerate(text.split("\n"), 1):
        words = line.split("#")[0].split()
        if not words:
            continue
        try:
            said = step(machine, words)
        except Misread as why:
            said, good = f"not understood: {why}", False
        if said is not None:
            lines.append(f"{at} {said}")
    return lines, good


def main(arguments):
    if len(arguments) == 2 and arguments[0] == "-c":
        text = arguments[1].replace(";", "\n")
    elif len(arguments) == 1:
        with open(arguments[0], encoding="utf-8", errors="replace") as script:
            text = script.read()
    else:
        print("usage: python3 second/run.py SCRIPT, or -c 'LINE; LINE; ..'", file=sys.stderr)
        return 2
    lines, good = run(text)
    for line in lines:
        print(line.encode("ascii", "replace").decode())
    return 0 if good else 1


if __name__ == "__main__":
    sys.exit(main(sys.argv[1:]))
