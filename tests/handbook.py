"""docs/HANDBOOK.md does as written: each row's lines give its number, made of the second program and of the proved library
beside it; its program in C prints 15; its classes are those of the lines; what the row of 14 cites is proved; what the hosts say
beside a refusal's line is said in that number's row.
"""
import re
import subprocess
import sys

from beside import Beside
from proved import ROOT, Tally, library
import shipped

import run as runner
from sheet import class_of

MADE = ROOT / "target" / "handbook"
PAGE = (ROOT / "docs" / "HANDBOOK.md").read_text()


def rows():
    """Number, class, and the last cell of each row."""
    for row in re.finditer(r"^\| (\d+) \| ([a-z-]+) \| .* \| (.*) \|$", PAGE, re.M):
        yield int(row.group(1)), row.group(2), row.group(3)


def provoked(tally, number, lines):
    said, good = runner.run(lines.replace(";", "\n"))
    answer = re.search(r" answer=(\d+) ", said[-1]) if said else None
    tally.same("every line is understood", number, good, True)
    tally.same("the last line's answer", number, answer and int(answer.group(1)), number)


def program(tally):
    """The page's program in C, against the archive as it is shipped."""
    MADE.mkdir(parents=True, exist_ok=True)
    (MADE / "epoch.c").write_text(re.search(r"^```c\n(.*?)^```$", PAGE, re.M | re.S).group(1))
    said = subprocess.run(shipped.program(MADE / "epoch.c", MADE / "epoch"), capture_output=True, text=True)
    tally.same("the program in C", "15", (said.returncode, said.stdout), (0, "15\n"))


def cited(tally, page):
    """Crate and theorem of each name that the page cites so."""
    for crate, name in re.findall(r"`(\w+)` `([a-z_-]+)`", page):
        stated = [path for path in (ROOT / "crates" / crate / "proofs").glob("*.antt") if f"pub {name} :" in path.read_text()]
        tally.same("a theorem of that name", (crate, name), len(stated), 1)


def told_by_hosts():
    """Each number's sentences in host/common/handbook.c."""
    source = (ROOT / "host" / "common" / "handbook.c").read_text()
    for number, strings in re.findall(r'^    \[(\d+)\] = ((?:"[^"\n]*"\s*)+),$', source, re.M):
        yield int(number), "".join(re.findall(r'"([^"\n]*)"', strings)).removesuffix(".").split(". ")


def said_here(sentence, cell):
    """A sentence of the hosts begins with a capital; in the row it may stand behind other words."""
    plain = cell.replace("`", "")
    return sentence in plain or sentence[0].lower() + sentence[1:] in plain


def hosts_say(tally):
    cells = {int(number): (given, does) for number, given, does in re.findall(r"^\| (\d+) \| [a-z-]+ \| (.*?) \| (.*?) \| ", PAGE, re.M)}
    told = dict(told_by_hosts())
    tally.same("a sentence a refusal", "numbers", list(told), [number for number in cells if number != 14])
    for number, (first, *rest) in told.items():
        tally.same("what it means is in the row", (number, first), said_here(first, cells[number][0]), True)
        for sentence in rest:
            tally.same("what to do is in the row", (number, sentence), any(said_here(sentence, cell) for cell in cells[number]), True)


def main():
    tally = Tally()
    Beside(library("ngt"), tally)
    found = list(rows())
    tally.same("a row an answer", "numbers", [number for number, _, _ in found], list(range(1, 17)))
    for number, name, how in found:
        tally.same("its class", number, name, class_of(number) or "-")
        lines = re.fullmatch(r"`(.*)`", how)
        if lines:
            provoked(tally, number, lines.group(1))
    shown = [number for number, _, how in found if how.startswith("`")]
    tally.same("rows with lines", "numbers", shown, [*range(1, 14), 16])
    program(tally)
    cited(tally, PAGE)
    hosts_say(tally)
    return tally.close()


if __name__ == "__main__":
    sys.exit(main())
