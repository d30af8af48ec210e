"""Every exported function that asks something of its caller stands in docs/DECISIONS.md, with the reason.

A row of that page's table names a crate and functions of it. Here it is held against the `requires` in crates/*/src, both ways:
a function that asks and isn't named fails, and so does a name behind which nothing is asked.
"""
import pathlib
import re
import sys

PAGE = "## Functions that ask something of their caller\n"


def asking():
    """(crate, function) of each public function with a `requires`, and of each such method of a public trait, behind the trait's name."""
    for source in sorted(pathlib.Path("crates").glob("*/src/**/*.rt")):
        page = source.read_text()
        for found in re.finditer(r'^ *pub (?:extern "C" )?fn (\w+)(.*?)(?:\{|^ *\{)\n', page, re.M | re.S):
            if "requires" in found.group(2):
                yield source.parts[1], found.group(1)
        for trait in re.finditer(r"^pub trait (\w+)[^{]*\{\n(.*?)^\}", page, re.M | re.S):
            for found in re.finditer(r"^    fn (\w+)(.*?)(?:;|\{)\n", trait.group(2), re.M | re.S):
                if "requires" in found.group(2):
                    yield source.parts[1], f"{trait.group(1)}::{found.group(1)}"


def named():
    """(crate, function) of each row of the page's table."""
    page = pathlib.Path("docs/DECISIONS.md").read_text().split(PAGE)[1].split("\n## ")[0]
    for row in re.finditer(r"^\| `(\w+)` \| (.*?) \| \S.* \|$", page, re.M):
        for function in re.findall(r"`(\w+(?:::\w+)?)`", row.group(2)):
            yield row.group(1), function


def main():
    asks, names = set(asking()), set(named())
    for crate, function in sorted(asks - names):
        print(f"{crate}::{function} has a `requires` and stands in no row of docs/DECISIONS.md")
    for crate, function in sorted(names - asks):
        print(f"docs/DECISIONS.md names {crate}::{function}, which asks nothing")
    wrong = len(asks ^ names)
    print(f"{len(asks & names)} passed, {wrong} failed")
    sys.exit(1 if wrong else 0)


main()
