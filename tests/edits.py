#!/usr/bin/env python3
"""Checks that every must-fail edit is refused where its author says, and for that reason.

  tests/edits.py [FILE]           compares each edit's 'fails:' line with the reason that rt gives
  tests/edits.py --show [FILE]    prints where each edit is refused, as its 'fails:' line has to say it, a line each

FILE, or else the standard input, is what `rt ci` or `rt must-fail` printed. Both print the reason of every edit, also of one that an
earlier run tried; where an edit stands there more than once, the last line counts.

An edit carries a line 'fails: WHERE NEED'. WHERE is the function or the file of laws at which the check stops, as the path below
proofs/ without its ending, which is also the path of a function that has no file there. NEED is the goal or the law that does not hold
there. A reason that only says that a proof no longer fits the code's shape shows nothing, so it is never accepted.
"""
import pathlib
import re
import sys

TOP = pathlib.Path(__file__).resolve().parent.parent

TRIED = re.compile(r"rt: must-fail (\w+)/([\w.-]+)\.edit: (.*)")
REFUSED = "refused, as it must be: "
# A place in a proof or in the code, and what is not shown there. rt cuts it off after 160 letters.
REASON = re.compile(r"(?:note: )?(?:\./)?((?:proofs|src)/\S+?):(\d+):\d+: (.*)")
# Said of a name, a shape or a borrow that no longer fits, or of what rests on something else that failed.
SHOWS_NOTHING = re.compile(
    r"has no\s+(field|that|$)|named from here|not in scope|is no name|is not a module|expected \d+ argument|too many arguments"
    r"|operand is missing|expected the end|cannot continue|not admitted|was rejected|not checked|\bmoved\b|\bborrow"
)
QUOTED = re.compile(r"`[^`]*(`|$)")

METHODS_OF = re.compile(r"impl\b(?:<.*?>)? (?:.* for )?(\w+)")
FUNCTION = re.compile(r'\s*(?:pub(?:\(\w+\))? )?(?:extern "C" )?fn (\w+)')


def function_at(crate, path, number):
    """The path of the function whose text has this line: its modules, the type that it is a method of, its name."""
    where = list(pathlib.PurePath(path).with_suffix("").parts[1:])
    if where[-1] in ("lib", "main", "mod"):
        where.pop()
    methods_of = name = None
    lines = (TOP / "crates" / crate / path).read_text().splitlines()
    # A function may be told by the line of an attribute that stands above it.
    while number < len(lines) and lines[number - 1].lstrip().startswith("#["):
        number += 1
    for line in lines[:number]:
        if line == "}":
            methods_of = name = None
        elif found := METHODS_OF.match(line):
            methods_of = found[1]
        elif found := FUNCTION.match(line):
            name = found[1]
    return "/".join([*where, *filter(None, [methods_of]), name or "?"])


def place_and_need(crate, reason):
    """Where the check of an edit stopped, and the goal or law that failed there; '?' for what the reason does not name."""
    found = REASON.match(reason)
    if not found:
        return "?", "?"
    path, number, said = found.groups()
    if path.startswith("src/"):
        need = re.search(r"\(`([^`]+)`\)", said)
        return function_at(crate, path, int(number)), need[1] if need else "?"
    need = re.match(r"error: `([^`]+)`: ", said)
    return re.sub(r"^proofs/|(/Answers|/Invariants|/Proof)?\.antt$", "", path), need[1] if need else "?"


def fails_line(edit):
    lines = [line.removeprefix("fails: ").strip() for line in edit.read_text().splitlines() if line.startswith("fails: ")]
    return lines[0] if len(lines) == 1 else None


def what_is_wrong(edit, crate, said):
    if said is None:
        return "it was not tried"
    if not said.startswith(REFUSED):
        return f"rt says of it: {said}"
    reason, expected = said.removeprefix(REFUSED), fails_line(edit)
    if SHOWS_NOTHING.search(QUOTED.sub("", reason)):
        return f"its reason shows nothing: {reason}"
    if expected is None:
        return "it has no line 'fails: WHERE NEED', or more than one"
    place, need = place_and_need(crate, reason)
    if expected != f"{place} {need}":
        return f"expected '{expected}', but it is refused at '{place} {need}': {reason}"
    return None


def main():
    words = sys.argv[1:]
    show = words[:1] == ["--show"]
    files = words[1:] if show else words
    if len(files) > 1 or any(file.startswith("-") for file in files):
        sys.exit(__doc__)
    text = pathlib.Path(files[0]).read_text(errors="replace") if files else sys.stdin.buffer.read().decode(errors="replace")
    tried = {(found[1], found[2]): found[3] for found in map(TRIED.match, text.splitlines()) if found}
    wrong, edits = [], sorted(TOP.glob("crates/*/must-fail/*.edit"))
    for edit in edits:
        crate = edit.parent.parent.name
        said = tried.get((crate, edit.stem))
        if show:
            print(f"{crate}/{edit.stem}:", *place_and_need(crate, (said or "").removeprefix(REFUSED)))
        elif why := what_is_wrong(edit, crate, said):
            wrong.append(f"{crate}/{edit.stem}: {why}")
    for line in wrong:
        print(f"edits: {line}", file=sys.stderr)
    if not show:
        print(f"edits: {len(edits) - len(wrong)} of {len(edits)} are refused where they say")
    sys.exit(1 if wrong else 0)


main()
