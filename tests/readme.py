"""README.md does as written: its program in C is built against the header and the shipped archive, and prints what it says.
Its program in Rattle is that of crate `recorder`, and what it prints is that crate's stdout, to which `rt ci` holds it.

The picture of the crates is the one that crates.txt draws, and every crate has its row.
"""
import re
import subprocess
import sys

from shipped import ROOT, program

MADE = ROOT / "target" / "readme"


def block(page, mark):
    """What stands between a fence with this mark and the next fence."""
    return re.search(rf"^```{mark}\n(.*?)^```$", page, re.M | re.S).group(1)


def built(source):
    MADE.mkdir(parents=True, exist_ok=True)
    (MADE / "example.c").write_text(source)
    return program(MADE / "example.c", MADE / "example")


def is_the_command(page):
    """The page's command is the one that makes the archive where there is none."""
    return "`tests/archive.sh ngt` makes `target/staticlib/libngt.a`, which is what `rt lib` makes in `crates/ngt_c`" in page and '&& rt lib)' in (ROOT / "tests" / "archive.sh").read_text()


def is_the_recorder(page):
    crate = ROOT / "crates" / "recorder"
    return block(page, "rust") == (crate / "src" / "main.rt").read_text() and block(page, "output") == (crate / "stdout").read_text()


def main():
    page = (ROOT / "README.md").read_text()
    said = subprocess.run(built(block(page, "c")), capture_output=True, text=True)
    drawn = subprocess.run([sys.executable, str(ROOT / "docs" / "picture.py"), str(ROOT / "README.md")])
    named = set(re.findall(r"^(\w+)(?: staticlib)?:", (ROOT / "crates.txt").read_text(), re.M))
    rows = set(re.findall(r"^\| `(\w+)` \|", page, re.M))
    checks = {
        "the program in C ends well": said.returncode == 0,
        "it prints what the page says": said.stdout == block(page, "text"),
        "the archive is made by the page's command": is_the_command(page),
        "the program in Rattle and what it prints are those of crate recorder": is_the_recorder(page),
        "the picture is that of crates.txt": drawn.returncode == 0,
        "every crate has its row, and no other": named == rows,
    }
    for what, fact in checks.items():
        if not fact:
            print(f"readme: not so: {what}")
    print(f"{sum(checks.values())} passed, {len(checks) - sum(checks.values())} failed")
    sys.exit(0 if all(checks.values()) else 1)


main()
