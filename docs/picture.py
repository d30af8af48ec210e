"""Draws crates.txt as a Mermaid picture: its groups, and an arrow to each crate that is touched and isn't reached through
another one.

`python3 docs/picture.py` prints it. `python3 docs/picture.py README.md` says whether the page has it.
"""
import pathlib
import sys


def crates(text):
    lines = (line.split("#")[0].strip() for line in text.split("\n"))
    named = (line.split(":") for line in lines if line)
    return {name.split()[0]: below.split() for name, below in named}


def groups(text):
    """Each group's name and its crates; a line `## NAME` begins one."""
    for part in text.split("\n## ")[1:]:
        name, _, rest = part.partition("\n")
        yield name, list(crates(rest))


def reached(below, name):
    """All that a crate stands over."""
    found = set()
    for other in below.get(name, []):
        found |= {other} | reached(below, other)
    return found


def picture(text):
    below = crates(text)
    lines = ["graph TD"]
    for i, (name, named) in enumerate(groups(text)):
        lines += [f'    subgraph g{i}["{name}"]', *(f"        {crate}" for crate in named), "    end"]
    for name, touched in below.items():
        through = set().union(*(reached(below, other) for other in touched)) if touched else set()
        for other in touched:
            if other in below and other not in through:
                lines.append(f"    {name} --> {other}")
    return "\n".join(lines)


def main(words):
    root = pathlib.Path(__file__).resolve().parent.parent
    drawn = picture((root / "crates.txt").read_text())
    if not words:
        print(drawn)
        return 0
    if drawn in pathlib.Path(words[0]).read_text():
        return 0
    print(f"{words[0]} hasn't the picture that crates.txt draws: python3 docs/picture.py")
    return 1


sys.exit(main(sys.argv[1:]))
