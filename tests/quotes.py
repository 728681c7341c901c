#!/usr/bin/env python3
"""Checks what docs/PROOFS.md says against the files that it speaks of.

A fenced block that begins with ```antt FILE must stand in that file word for word, comments aside. Every theorem, definition and
must-fail edit that the document names must exist, and every must-fail edit must be named.
"""
import pathlib
import re
import sys

TOP = pathlib.Path(__file__).resolve().parent.parent
DOCUMENT = TOP / "docs" / "PROOFS.md"


def plain(text):
    """The text's lines without comments, empty lines and the space around them."""
    lines = (re.sub(r"--.*", "", line).strip() for line in text.splitlines())
    return [line for line in lines if line]


def stands_in(quoted, text):
    """Whether the lines of the one stand, one behind the other, in the other."""
    for start in range(len(text) - len(quoted) + 1):
        if text[start : start + len(quoted)] == quoted:
            return True
    return False


def wrong_quotations(document):
    found = re.findall(r"^```antt (\S+)\n(.*?)^```$", document, re.M | re.S)
    if not found:
        yield "no statement is quoted"
    for name, body in found:
        path = TOP / name
        if not path.exists():
            yield f"{name}: quoted, but there is no such file"
        elif not stands_in(plain(body), plain(path.read_text())):
            yield f"{name}: a quoted block does not stand there: {plain(body)[0] if plain(body) else 'empty'}"


def names_there():
    """Every name that a file of Rattle or antt declares, and every must-fail edit."""
    names = set()
    for path in TOP.glob("crates/**/*.antt"):
        if "out" in path.relative_to(TOP).parts:
            continue
        text = path.read_text()
        names.update(re.findall(r"^ *(?:abbrev |unfoldable )?(?:pub )?(?:record |data )?([A-Za-z][^\s:(){}]*) *[:({]", text, re.M))
        names.add(path.stem)
    for path in TOP.glob("crates/*/src/**/*.rt"):
        names.update(re.findall(r"\b(?:fn|struct|enum|const|type|mod) ([A-Za-z_]+)", path.read_text()))
    names.update(path.stem for path in TOP.glob("crates/*/must-fail/*.edit"))
    names.update(path.name for path in TOP.glob("crates/*"))
    return names


def wrong_names(document):
    prose = re.sub(r"^```.*?^```$", "", document, flags=re.M | re.S)
    there = names_there()
    for name in sorted(set(re.findall(r"`([A-Za-z][A-Za-z0-9_-]*)`", prose))):
        if name not in there and name.replace("-", "_") not in there and name not in ALLOWED:
            yield f"`{name}` is named, but nothing declares it"


# What the document names besides: words of the kit and of Rattle, folders, and commands.
ALLOWED = {"requires", "ensures", "specs", "proofs", "main", "rt", "axioms", "Post", "code", "make", "grep", "antt"}


def unnamed_edits(document):
    for path in sorted(TOP.glob("crates/*/must-fail/*.edit")):
        if not re.search(rf"\b{re.escape(path.stem)}\b", document):
            yield f"the edit {path.parent.parent.name}/{path.stem} is not named"


def main():
    document = DOCUMENT.read_text()
    wrong = [*wrong_quotations(document), *wrong_names(document), *unnamed_edits(document)]
    for line in wrong:
        print(f"quotes: {line}", file=sys.stderr)
    if wrong:
        sys.exit(1)
    print(f"quotes: {len(re.findall('^```antt ', document, re.M))} quoted statements stand, and every name that is named is there")


main()
