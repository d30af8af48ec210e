"""Looks at the first error of every must-fail edit that the gate tried.

An edit is worth something where a fact fails. One whose first error is about a name, or that does
not compile, only made the proof unfit for the code and shows nothing, so it fails the gate.
"""
import pathlib
import re
import sys

SAID = pathlib.Path("target/ci.log")
SHOWS_NOTHING = ("can be named from here", "is not in scope", "error[", "Parse", "has no field")
REFUSED = re.compile(r"^rt: must-fail (\S+)\.edit: refused, as it must be: (.*)$", re.M)


def main():
    edits = sorted(pathlib.Path("crates").glob("*/must-fail/*.edit"))
    errors = dict(REFUSED.findall(SAID.read_text(errors="replace")))
    bad = 0
    for edit in edits:
        name = f"{edit.parent.parent.name}/{edit.stem}"
        line = errors.get(name, "")
        if not line or any(words in line for words in SHOWS_NOTHING):
            bad += 1
            print(f"{name} shows nothing: {line[:300] or 'it was not refused by an error'}")
    print(f"{len(edits) - bad} passed, {bad} failed")
    sys.exit(1 if bad else 0)


main()
