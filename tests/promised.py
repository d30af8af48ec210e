"""Every `pub fn` has its theorem that no second outcome meets its words, over its own `ensures`.

The theorem stands in the crate's proofs/Outcomes.antt under the function's name, behind that of its module. It has
to be stated over what the checker made of the function itself, so that a weaker `ensures` doesn't meet it; a copy
of the words won't do. The checker proves it; this looks that none is missing and each is about its function.
Crate NAME_c passes the functions of NAME on to C: each of them, with its very words.
"""
import pathlib
import re
import sys

# Programs whose own functions have none, with the reason.
PRINTS = "its functions print, and no contract can say what is written"
PROGRAMS = {"vectors": PRINTS, "vectors_aes": PRINTS}

# The public traits, whose instances' methods are met through a type parameter and have the trait's very words. Those named here
# below have no theorem of their own: those of the generic functions over them say what comes of it.
TRAITS = {"Direction", "Source"}
SAID_BY_THE_TRAIT = {"ForwardDirection_turn", "BackwardDirection_turn", "source_WrittenSource_offset", "source_WrittenSource_len",
                     "encrypted_EncryptedSource_offset", "encrypted_EncryptedSource_len", "encrypted_EncryptedSource_lay_flake"}

BASE = "use Rattle.base.specs.Outcome.{"
SHOWN = "(λ κs. (ℕ × ℕ) × List ℕ) (λ κs r. (r.ref_ptr, r.now))"


def functions(crate):
    """Each public function or method, and each method of an instance of a public trait: its path, its const and type parameters
    (name, whether it is a number), and whether it hands back a reference."""
    shape = r'^(?:impl(?:<[^>]*>)? (?:(\w+)(?:<[^>]*>)? for )?(\w+)|\}|[ ]*(pub )?(?:extern "C" )?fn (\w+)(<[^(]*>)?\([^{]*?\)(?:\s*->\s*(\S+))?)'
    for source in sorted((crate / "src").rglob("*.rt")):
        module = source.relative_to(crate / "src").with_suffix("").parts
        module, owner = () if module in (("lib",), ("main",)) else module, ()
        for found in re.finditer(shape, source.read_text(), re.M):
            trait, kind, is_public, name, generic, result = found.groups()
            if not name:
                owner = (f"{kind}{trait}" if trait else kind,) if kind else ()
                shown = trait in TRAITS
                continue
            inside = owner if found.group(0).startswith(" ") else ()
            if is_public or (inside and shown):
                parts = [part.split(":")[0].split() for part in (generic or "").strip("<>").split(",") if part.strip()]
                parameters = [(part[-1], part[0] == "const") for part in parts if not part[-1].startswith("'")]
                yield (*module, *inside, name), parameters, (result or "").startswith("&")
    stray = sum(len(re.findall(r'^ *pub (?:extern "C" )?fn ', source.read_text(), re.M)) for source in (crate / "src").rglob("*.rt"))
    met = sum(len(re.findall(r'^ *pub (?:extern "C" )?fn \w+(?:<[^(]*>)?\(', source.read_text(), re.M)) for source in (crate / "src").rglob("*.rt"))
    if stray != met:
        yield ("a public function that this test can't read",), [], False


def said(page, name, ends):
    """What stands behind a name, up to the line that begins with `ends`, in one line."""
    found = re.search(rf"^{name}(.*?)^{ends}", page, re.M | re.S)
    return " ".join(found.group(1).split()) if found else None


def over(module, parameter, is_number):
    """The theorem of a generic function: for every value of its one parameter, and nothing else asked."""
    if is_number:
        return f"({parameter} : ℕ) (fits : Fits w64 {parameter}) → OneOutcome (said.{module}.ended (number {parameter})) (fn.{module}.Reads.Post {parameter} fits)"
    return (f"({parameter} : RattleType) (laws : Laws {parameter}) (ghosts : Ghosts {parameter}.Denot) (dict : Dict) → "
            f"OneOutcome (said.{module}.ended {parameter} ghosts dict) (fn.{module}.Reads.Post {parameter} laws ghosts dict)")


def is_promised(page, path, parameters, hands_back):
    """Whether the page has the theorem of this function; of a generic one for its parameter."""
    name, module = "_".join(path), ".".join(path)
    theorem = said(page, f"pub {name} :", f"{name} ")
    if parameters:
        return len(parameters) == 1 and not hands_back and theorem == over(module, *parameters[0])
    kind = f"OneSeen said.{module}.ended {SHOWN}" if hands_back else f"OneOutcome said.{module}.ended"
    return theorem == f"{kind} fn.{module}.Reads.Post"


def stated(crate):
    """Each export of a crate, or each function of the library that it passes on: its parameters, result and clauses."""
    for source in sorted((crate / "src").rglob("*.rt")):
        for found in re.finditer(r'^pub (?:extern "C" )?fn (\w+)(.*?)^\{', source.read_text(), re.M | re.S):
            yield (source.name, found.group(1)), re.sub(r"\s|,(?=\s*\))", "", found.group(2))


def passed_on(crate):
    """The functions of a crate of exports and of its library, and those that aren't in both with the very same words."""
    library, exports = dict(stated(crate.with_name(crate.name.removesuffix("_c")))), dict(stated(crate))
    every = library.keys() | exports.keys()
    return len(every), [name for file, name in sorted(every) if library.get((file, name)) != exports.get((file, name))]


def lacking(crate):
    """The public functions of a crate, and those that have no theorem."""
    if crate.name.endswith("_c"):
        return passed_on(crate)
    every = [each for each in functions(crate) if "_".join(each[0]) not in SAID_BY_THE_TRAIT]
    if not every or (crate.name in PROGRAMS and (crate / "src" / "main.rt").exists()):
        return 0, []
    outcomes, root = crate / "proofs" / "Outcomes.antt", crate / "proofs" / "Lib.antt"
    page = outcomes.read_text() if outcomes.exists() else ""
    checked = root.exists() and "pub mod Outcomes\n" in root.read_text()
    cited = (BASE, f"use Rattle.{crate.name}.proofs as fn\n", f"use Rattle.{crate.name}.specs.contracts as said\n")
    if not checked or not all(line in page for line in cited):
        return len(every), ["::".join(path) for path, *_ in every]
    return len(every), ["::".join(path) for path, *rest in every if not is_promised(page, path, *rest)]


def main():
    total = bad = 0
    for crate in sorted(pathlib.Path("crates").iterdir()):
        count, missing = lacking(crate)
        total, bad = total + count, bad + len(missing)
        for name in missing:
            print(f"{crate.name}::{name} has no theorem of one outcome over its own ensures")
    print(f"{total - bad} passed, {bad} failed")
    sys.exit(1 if bad else 0)


main()
