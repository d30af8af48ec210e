"""`ngt compare`, which holds two copies of a drive against each other, against the second program.

No two volumes make it say `collision`, since that would break BLAKE2s; it says so in a tool built over a function that only pretends:
nugget 1 collides, and nugget 2 is refused behind it unless the second volume is empty.
"""
import pathlib
import random
import subprocess
import sys
import tempfile

import inputs
import calls
import lines
import sample
from checks.make import flipped
from rig import BUSY, MADE, ROOT, SYSTEM, TOOL, USAGE, Checks
from twins import twins

SAME, COLLISION = 0, 65
PRETENDS = """#include "ngt.h"
uint32_t __wrap_ngt_twins(const uint8_t drive[144], const uint8_t *first, size_t first_len, const uint8_t *second, size_t second_len, uint32_t nugget,
                          uint8_t one[1055], uint8_t two[1055], uint8_t length[4], uint8_t answer[16]) {
    (void)drive, (void)first, (void)first_len, (void)second, (void)one, (void)two;
    length[0] = nugget == 1 ? 65 : 0, length[1] = length[2] = length[3] = 0;
    answer[4] = 1;
    return answer[0] = nugget == 2 && second_len ? 7 : 0;
}
"""


def pretending(folder):
    """The tool with `ngt_twins` put aside."""
    source, tool = folder / "pretends.c", folder / "pretends"
    source.write_text(PRETENDS)
    parts = [*(ROOT / "host/ngt").glob("*.c"), *(ROOT / "host/common").glob("*.c"), source, MADE / "libngt.a"]
    subprocess.run(["gcc", "-std=c11", "-D_GNU_SOURCE", "-Wall", "-Wextra", "-Werror", "-Iinclude", "-Wl,--wrap=ngt_twins", "-o", tool, *parts], cwd=ROOT, check=True)
    return tool


class Copies:
    """Two copies, secrets and counter as files."""

    def __init__(self, folder):
        self.folder = folder
        self.files = {name: folder / name for name in ("first", "second", "present", "old", "counter")}

    def put(self, keys, first, second):
        for name, data in (("first", first), ("second", second), ("present", keys[:32]), ("old", keys[32:64]), ("counter", f"{counter(keys)}\n".encode())):
            self.files[name].touch(0o600)
            self.files[name].write_bytes(data)

    def said(self, tool, first="first", second="second", *more):
        words = [self.folder / first, self.folder / second, "--secret", self.files["present"], "--old-secret", self.files["old"], "--counter", self.files["counter"]]
        return subprocess.run([tool, "compare", *words, *more], capture_output=True)


def counter(keys):
    return int.from_bytes(keys[64:72], "little")


def wanted(keys, first, second):
    """The first refusal and whose it is; None if there is none."""
    got = calls.mount(first, keys[:32], keys[32:64], counter(keys))
    if got.answer.number:
        return got.answer, "first"
    answers = (twins(got.drive, first, second, n).answer for n in range(got.drive.n))
    return next(((answer, "second") for answer in answers if answer.number), None)


def cases(source, data, other):
    """The sheet's input of one version, with copies of its volume; and a volume of the other version."""
    keys, volume = data[:72], data[72:]
    drive = calls.mount(volume, keys[:32], keys[32:64], counter(keys)).drive
    wrote = calls.write(drive, volume, 0, b"later")
    after = calls.discard(wrote.drive, wrote.volume, 0, 0, 1) if drive.version == 2 else wrote
    later = keys[:64] + after.drive.counter.to_bytes(8, "little")
    yield keys, volume, volume
    yield later, after.volume, after.volume
    yield later, after.volume, volume
    yield later, after.volume, wrote.volume
    for wrong in (keys[32:64] + keys[:32] + keys[64:], keys[:32] * 2 + keys[64:], keys[:64] + bytes(8), later):
        yield wrong, volume, volume
    for bad in (b"", volume[:-1], volume + b"!", b"?" + volume[1:], volume[:8] + bytes(4) + volume[12:], volume[:3] + b"\3" + volume[4:],
                other[72:]):
        yield keys, volume, bad
        yield keys, bad, volume
    for _ in range(60):
        yield keys, volume, flipped(volume, source.randrange(len(volume)), source.randrange(8))
        yield keys, flipped(volume, source.randrange(len(volume)), source.randrange(8)), volume


def compared(checks, copies, case, met):
    copies.put(*case)
    ran, bad = copies.said(TOOL), wanted(*case)
    if bad:
        answer, whose = bad
        checks.same((ran.returncode, ran.stdout), (answer.number, b""), f"refused: {ran.stderr}")
        checks.that(ran.stderr.startswith(lines.refusal_line(answer.image())), f"the refusal's line: {ran.stderr}")
        checks.that(ran.stderr.endswith(f"that is of {copies.files[whose]}\n".encode()), f"whose it is: {ran.stderr}")
        met.add(answer.number)
    else:
        checks.same((ran.returncode, ran.stdout, ran.stderr), (SAME, b"same\n", b""), "same")
        met.add(SAME)


def by_itself(checks, copies, good):
    """What the second program doesn't have: a collision, one file twice, files that can't be used."""
    tool = pretending(copies.folder)
    copies.put(*good)
    ran = copies.said(tool)
    checks.same((ran.returncode, ran.stdout), (7, b""), "a refusal behind a collision")
    copies.put(good[0], good[1], b"")
    ran = copies.said(tool)
    checks.same((ran.returncode, ran.stdout), (COLLISION, b"collision\n"), "a collision")
    checks.same(copies.said(TOOL, "first", "first").stdout, b"same\n", "a volume and itself")
    checks.same(copies.said(TOOL, "first", "none").returncode, SYSTEM, "a second that isn't there")
    checks.same(copies.said(TOOL, "none", "first").returncode, SYSTEM, "a first that isn't there")
    checks.same(copies.said(TOOL, "first", "second", "third").returncode, USAGE, "three volumes")
    checks.same(subprocess.run([TOOL, "compare", copies.files["first"]], capture_output=True).returncode, USAGE, "one volume")
    with subprocess.Popen(["flock", copies.files["second"], "cat"], stdin=subprocess.PIPE, stdout=subprocess.PIPE) as other:
        other.stdin.write(b"!"), other.stdin.flush(), other.stdout.read(1)
        checks.same(copies.said(TOOL).returncode, BUSY, "a copy in use")
        other.stdin.close()


def main():
    (ROOT / "target").mkdir(exist_ok=True)
    subprocess.run(["flock", "target/hosts.lock", "make", "-s", "hosts"], cwd=ROOT, check=True, stdout=subprocess.DEVNULL)
    checks, met = Checks(), set()
    source, data, other = random.Random(f"{inputs.SEED} compare"), (ROOT / "crates" / "sheet" / "stdin").read_bytes(), sample.sample(2)
    with tempfile.TemporaryDirectory() as name:
        copies, given = Copies(pathlib.Path(name)), [*cases(source, data, other), *cases(source, other, data)]
        for case in given:
            compared(checks, copies, case, met)
        by_itself(checks, copies, given[0])
    checks.same(met, {SAME, *range(1, 8)}, "every answer comes up")
    checks.close()


if __name__ == "__main__":
    sys.exit(main())
