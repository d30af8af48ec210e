#!/usr/bin/env python3
"""respell.py: brings the repository's own definitions and lemmas to today's spelling, by tools/respell.tsv.

Words are in snake case, types and modules in camel case; a dash joins two names, and a plain word is added with `_`.
A row of the table is: the name at first, the name as the toolchain's own script leaves it, the name now.
It was run once, at the top of the repository, right after that script; run again it would take new names for old ones.
What turns: the code of .antt files; clauses and `ghost use` lines of .rt files; names in comments between backticks,
and those in mixed case also without them. Functions of src/, exported names and strings stay.
In a proof file of a function only what the file imports turns, since its other names are made from the source.
"""
import pathlib
import re

WORD = re.compile(r"[^\s(){}.;,@\"«»`⌜⌝⟨⟩⟦⟧\[\]]+")
HERE = pathlib.Path(__file__).resolve().parent
TOP = HERE.parent


def rows():
    for line in (HERE / "respell.tsv").read_text(encoding="utf-8").splitlines():
        first, turned, now = line.split("\t")
        if turned != now:
            yield turned, now


NOW = dict(rows())
MIXED = {old: new for old, new in NOW.items() if re.match(r"[a-z][^-]*[A-Z]", old)}


def turn(text, names):
    return WORD.sub(lambda m: names.get(m.group(0), m.group(0)), text)


def comment(text):
    """A comment: names between backticks, and names in mixed case anywhere."""
    text = re.sub(r"`[^`\n]*`", lambda m: turn(m.group(0), NOW), text)
    return turn(text, MIXED)


def code(text, names):
    """antt: all but quoted text; a comment as above."""
    done = []
    for piece in re.split(r'("(?:[^"\\\n]|\\.)*"|(?<![^\s(){}])--[^\n]*)', text):
        if piece.startswith("--"):
            done.append(comment(piece))
        elif piece.startswith('"'):
            done.append(piece)
        else:
            done.append(turn(piece, names))
    return "".join(done)


def imported(text):
    found = set()
    for items in re.findall(r"(?ms)^(?:pub )?use [^\s{]+?\.\{([^}]*)\}", text):
        found |= {item.split(" as ")[0].strip() for item in items.split(",")}
    return found


def antt(path, text):
    if path.name == "Outcomes.antt":
        # a theorem of a function's own words has the function's name
        own = {n: n.replace("-", "_") for n in re.findall(r"(?m)^pub ([a-z][\w-]*) :", text) if "-" in n}
        return code(text, NOW | own)
    if path.name == "Proof.antt":
        names = MIXED | {n: NOW[n] for n in imported(text) if n in NOW}
        held = re.split(r"((?<=[\w)])\.[a-z][\w'-]*)", text)
        turned = [piece if n % 2 else code(piece, names) for n, piece in enumerate(held)]
        return "".join(turn(p, MIXED) if n % 2 else p for n, p in enumerate(turned))
    return code(text, NOW)


def blocks(text):
    """Where the clauses and the `ghost use` lines of a .rt file stand."""
    for m in re.finditer(r"\b(?:requires|ensures)\*?(?: \w+)? \{|\bghost (?:use [^\s;{]*\{|\w+: \{)", text):
        depth, at = 1, m.end()
        while depth:
            depth += {"{": 1, "}": -1}.get(text[at], 0)
            at += 1
        yield m.end(), at


def rattle(text):
    done, last = [], 0
    for start, end in blocks(text):
        done += [text[last:start], turn(text[start:end], NOW)]
        last = end
    text = "".join(done) + text[last:]
    return re.sub(r"//[^\n]*", lambda m: comment(m.group(0)), text)


def main():
    changed = 0
    for path in sorted((TOP / "crates").rglob("*")):
        if "out" in path.relative_to(TOP).parts or path.suffix not in (".antt", ".rt", ".edit"):
            continue
        text = path.read_text(encoding="utf-8")
        new = antt(path, text) if path.suffix == ".antt" else rattle(text) if path.suffix == ".rt" else turn(text, MIXED)
        if new != text:
            path.write_text(new, encoding="utf-8")
            changed += 1
    print(f"{changed} files respelled")


if __name__ == "__main__":
    main()
