"""Every name that the pages give in backticks is a name in the repository.

A theorem, definition, function, type, field or case has to be declared, behind `crate` `name` or as `crate::name` in that crate;
a file, folder, edit or `make` target has to be there; of a printed field and of a plain word it is asked that some source has it.
Fenced blocks are left to tests/readme.py and tests/handbook.py, lines for second/run.py to the latter, other programs' commands to no one.
"""
import pathlib
import re
import sys

PAGES = ("README.md", "docs/PROMISES.md", "docs/ARCHITECTURE.md", "docs/DESIGNS.md", "docs/HANDBOOK.md")
CRATES = {path.name: path for path in pathlib.Path("crates").iterdir()}
# What isn't ours: the language, the toolchain and other programs.
OTHERS = {"rt", "python3", "ldconfig", "ensures", "requires", "match", "cryptography"}
COMMANDS = ("cc ", "gcc ", "cryptsetup ", "nbd-client ")
STATED = re.compile(r"^ *(?:pub |abbrev |unfoldable )*(?:([^\s:(){}]+) :(?= |$)|(?:record|data|mod|module) ([^\s:(){}]+))", re.M)
WRITTEN = re.compile(r"\b(?:fn|struct|enum|trait|const|mod) (\w+)|^    (?:pub )?([A-Za-z]\w*)(?:\(.*\)|: .*| \{.*)?,$", re.M)


def kept(folder, name):
    """The files below a folder, but for what the toolchain makes in a crate's out/."""
    return (path for path in folder.rglob(name) if "out" not in path.parts)


def declared():
    """Name to the crates that declare it."""
    names = {}
    for crate, folder in CRATES.items():
        for path in kept(folder, "*.antt"):
            names.setdefault(path.stem, set()).add(crate)
        for path in (*kept(folder, "*.antt"), *kept(folder, "*.rt")):
            for found in (STATED if path.suffix == ".antt" else WRITTEN).finditer(path.read_text()):
                names.setdefault(found.group(1) or found.group(2), set()).add(crate)
    return names


def sources():
    """All that is said outside of the pages, as one text."""
    paths = [pathlib.Path("Makefile"), *(path for top in ("crates", "include", "host", "second", "tests", "bench") for path in kept(pathlib.Path(top), "*"))]
    return "\n".join(path.read_text() for path in paths if path.suffix in (".antt", ".rt", ".c", ".h", ".py", ".sh", ".mk", "") and path.is_file()
                     and path.name not in ("stdin", "names.py"))


def is_there(path):
    """A file or folder, by its path or, without its crate's, in some crate; or an edit, as crate/label."""
    if path.startswith("target/") or "CRATE" in path:
        return True
    crate, _, label = path.partition("/")
    if crate in CRATES and (CRATES[crate] / "must-fail" / f"{label}.edit").exists():
        return True
    return pathlib.Path(path).exists() or any(next(folder.rglob(path.rstrip("/")), None) for folder in CRATES.values()) \
        or any((folder / path).exists() or (folder / f"{path}.antt").exists() for folder in CRATES.values())


class Names:
    def __init__(self):
        self.declared, self.text = declared(), sources()
        self.words = set(re.findall(r"[\w-]+=?", self.text)) | set(re.findall(r"\w+", self.text))
        self.edits = {path.stem for path in pathlib.Path("crates").glob("*/must-fail/*.edit")}

    def is_one(self, word):
        """Whether one word is a name here."""
        if word in OTHERS or word in CRATES or word in self.declared or word in self.edits:
            return True
        if "::" in word:
            crate, name = word.split("::", 1)
            return crate in self.declared.get(name, ())
        if "/" in word or word.endswith((".antt", ".rt", ".c", ".h", ".py", ".sh", ".md", ".txt")):
            return is_there(word)
        if "=" in word:
            name = word[:word.index("=")]
            return name + "=" in self.words or name.isupper() and name in self.words
        if re.fullmatch(r"[a-z0-9]+|ngt_\w+", word):
            return word in self.words
        return not re.fullmatch(r"[A-Za-z][\w-]*", word)

    def is_known(self, span):
        """Whether all of a span is."""
        if span.startswith("make "):
            return f"\n{span.split()[1]}:" in self.text
        return span.startswith(COMMANDS) or ";" in span or all(word.isupper() or self.is_one(word.strip("(),'")) for word in span.split())

    def wrong(self, page):
        """What the page names that isn't here, and how many spans it has."""
        text = re.sub(r"^```.*?^```$", "", page, flags=re.M | re.S)
        spans, pairs = re.findall(r"`([^`\n]+)`", text), re.findall(r"`(\w+)` `([A-Za-z][\w-]*)`", text)
        found = {f"`{span}`" for span in spans if not self.is_known(span)}
        found |= {f"`{crate}` `{name}`" for crate, name in pairs if crate in CRATES and crate not in self.declared.get(name, ())}
        return sorted(found), len(spans)


def main():
    names, passed, failed = Names(), 0, 0
    for page in PAGES:
        wrong, looked = names.wrong(pathlib.Path(page).read_text())
        for span in wrong:
            print(f"{page}: {span} names nothing here")
        passed, failed = passed + looked - len(wrong), failed + len(wrong)
    print(f"{passed} passed, {failed} failed")
    sys.exit(1 if failed else 0)


main()
