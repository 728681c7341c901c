#!/usr/bin/env python3
"""Brings the project's own definitions, fields and lemmas to the spelling of the present kit: words in snake case, a dash only
between two names of definitions. Run once at the top of the checkout, after the kit's own script; a second run changes nothing.

  tools/respell.py            rewrites crates/*/specs, proofs, src and must-fail
  tools/respell.py --names    prints each old and new name

Names that start with a capital (types, facts, modules), names of functions of src/ and names of the library stay.
"""
import pathlib
import re
import sys

TOP = pathlib.Path(__file__).resolve().parent.parent
TOKEN = re.compile(r"(?<![\w'◌≡≢≤·-])[^\W\d][\w'-]*(?![\w'◌≡≢≤·-])")
SIGNATURE = re.compile(r"^\s*(?:(?:pub|abbrev|unfoldable|record|data|ruleset)\s+)+([^\W\d][\w'-]*)")
PLAIN = re.compile(r"^\s*([a-z][\w'-]*)\s*:\s(.*)$")
BOUND = re.compile(r"\blet ([a-z][\w'-]*)\s*[:=]")
IMPORT = re.compile(r"\b(?:ghost )?use ([\w.+·-]+)\.\{([^}]*)\}")
# Words of the library that lemmas of ours put first or second, joined by a dash.
LIBRARY = set("length get_or take drop set sets replicate append map sum reverse".split())
# Names that would fall together: the lemma that would have its function's name takes the ending for that.
FALLEN = {
    name: name.replace("-", "_") + "_lem"
    for name in "are-lent end-kind example-cells first-bad in-file in-first in-range in-second long-enough nothing-stated region-kind"
    " serves-cells serves-round statement-kind union-where used-up wired-all".split()
}


def files():
    for crate in sorted((TOP / "crates").iterdir()):
        for part in ("specs", "proofs", "src"):
            for path in sorted((crate / part).rglob("*")):
                if path.suffix in (".antt", ".rt") and "out" not in path.parts:
                    yield path


def crates():
    return {c.name for c in (TOP / "crates").iterdir() if c.is_dir()}


def defined():
    """Every name that the project defines, and those that it takes from the library."""
    own, specs, library, functions = set(), set(), set(), set()
    ours = crates()
    for path in files():
        text = path.read_text()
        for module, names in IMPORT.findall(text):
            parts = module.split(".")
            if not (parts[0] == "Rattle" and len(parts) > 1 and parts[1] in ours):
                library |= set(re.split(r"[,\s]+", names))
        if path.suffix == ".rt":
            functions |= set(re.findall(r"\bfn (\w+)", text))
            continue
        for line in text.splitlines():
            found = SIGNATURE.match(line)
            if found:
                own.add(found.group(1))
                if "specs" in path.parts:
                    specs.add(found.group(1))
            plain = PLAIN.match(line)
            if plain and not re.match(r"(tie|goal)\.", plain.group(2)):
                own.add(plain.group(1))
            own |= set(BOUND.findall(line))
    return own, specs, library, functions


def snake(word):
    return re.sub(r"(?<=[a-z0-9])([A-Z])", lambda m: "_" + m.group(1).lower(), word)


def renamed():
    own, specs, library, functions = defined()
    joined = {snake(x) for x in specs if "-" not in x} | LIBRARY
    table = {}
    for name in sorted(own - library):
        if not name[0].islower() or not re.search(r"-|[a-z0-9][A-Z]", name):
            continue
        if re.search(r"-[A-Z]", name):
            parts = name.split("-")
            new = "_".join(snake(p) if p[0].islower() else p for p in parts)
        else:
            parts = [snake(p) for p in name.split("-")]
            new = "-".join(parts) if len(parts) == 2 and set(parts) <= joined else "_".join(parts)
        if new != name:
            table[name] = FALLEN.get(name, new)
    return table, own, library


def turned(text, table):
    return TOKEN.sub(lambda m: table.get(m.group(0), m.group(0)), text)


def main():
    table, own, library = renamed()
    back = {}
    for old, new in table.items():
        back.setdefault(new, set()).add(old)
    for new, olds in sorted(back.items()):
        together = olds | ({new} & (own | library))
        if len(together) > 1:
            print(f"respell: fall together as {new}: {', '.join(sorted(together))}", file=sys.stderr)
    if sys.argv[1:] == ["--names"]:
        for old, new in sorted(table.items()):
            print(old, new)
        return
    if sys.argv[1:]:
        sys.exit(__doc__)
    for path in files():
        text = path.read_text()
        # A proof by hand names its goals as they are made: what it answers is not a name of ours.
        answers = set(re.findall(r"^([\w'-]+) : (?:tie|goal)\.", text, re.M))
        new = turned(text, {a: b for a, b in table.items() if a not in answers})
        if new != text:
            path.write_text(new)


main()
