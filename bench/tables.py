#!/usr/bin/env python3
"""tables.py FILE: prints, as tables of Markdown, what the file that bench writes says: the times, how they grow, what the compilers
make of the C programs, and which bars are met. tables.py FILE DOCUMENT: whether these tables stand in the document.
tables.py FILE DOCUMENT write: puts each in the place of the one with the same head, if the run was native."""
import sys

sys.dont_write_bytecode = True
from figures import LIBRARY, Run  # noqa: E402

LARGEST = 64


def number(value):
    """Two digits at least, and all before the point."""
    places = 0 if value >= 100 else 1 if value >= 10 else 2 if value >= 0.1 else 3
    return f"{value:,.{places}f}"


def row(*cells):
    return "| " + " | ".join(cells) + " |"


def table(heads, rows):
    yield row(*heads)
    yield "|" + "---|" * len(heads)
    yield from rows


def times(run, kinds):
    """The library's time, and how many times as long the others take by their best compilers."""
    for n in run.sizes:
        for kind in kinds:
            answered = [str(run.kinds[kind])] if run.kinds[kind] else []
            cells = [str(n), kind, *answered, f"{run.rounds[kind, n]:.1f}", number(run.best(kind, n, LIBRARY)[0] / 1000)]
            for program in run.others:
                by = run.best(kind, n, program)[1]
                compiler = "" if program == "plain Rust" else f" ({by})"
                cells.append(number(run.times_library(kind, n, program)) + compiler)
            yield row(*cells)


def growth(run):
    """By what a time is multiplied where the number of regions is doubled."""
    for kind in run.kinds:
        for program in (LIBRARY, "queue C"):
            steps = zip(run.sizes, run.sizes[1:])
            yield row(kind, program, *(number(run.best(kind, b, program)[0] / run.best(kind, a, program)[0]) for a, b in steps))


def compilers(run):
    """How many times as fast as gcc -O2 each compiler makes a program at the largest size."""
    n = run.sizes[-1]
    for program in ("plain C", "queue C"):
        for kind in run.accepted():
            made = run.times[kind, n, program]
            yield row(program, kind, *(number(made["gcc -O2"] / made[by]) for by in ("gcc -O3", "clang -O2", "clang -O3")))


def bar(run, said, least, program, places):
    """One bar: the least of how many times the library's time the program took at these places, and whether it is enough."""
    kind, n = min(places, key=lambda place: run.times_library(*place, program))
    found = run.times_library(kind, n, program)
    return row(said, number(found), f"{kind}, n = {n}", "yes" if found >= least else "no")


def bars(run):
    stated = [kind for kind in run.accepted() if kind != "nothing"]
    queue, plain = "queue C", "plain C"
    for n in (16, 32, LARGEST):
        yield bar(run, f"n = {n}: faster than the queue, something stated", 1, queue, [(kind, n) for kind in stated])
    for n in (16, 32, LARGEST):
        yield bar(run, f"n = {n}: faster than the queue, nothing stated", 1, queue, [("nothing", n)])
    yield bar(run, "n = 64: 1.7 times as fast as the queue, something stated", 1.7, queue, [(kind, LARGEST) for kind in stated])
    yield bar(run, "n = 8, sparse, medium, dense: no slower than the queue", 1, queue, [(kind, 8) for kind in ("sparse", "medium", "dense")])
    for n in run.sizes:
        yield bar(run, f"n = {n}, refused: at worst a third of the queue's speed", 1 / 3, queue, [(kind, n) for kind in run.refused()])
    yield bar(run, "n = 64: 20 times as fast as plain C, accepted", 20, plain, [(kind, LARGEST) for kind in run.accepted()])


def tables(run):
    timed = ["rounds", "library, µs", *run.others]
    steps = [f"{a} to {b}" for a, b in zip(run.sizes, run.sizes[1:])]
    yield list(table(["n", "accepted", *timed], times(run, run.accepted())))
    yield list(table(["n", "refused", "with", *timed], times(run, run.refused())))
    yield list(table(["network", "program", *steps], growth(run)))
    yield list(table(["made faster than by gcc -O2", "network", "gcc -O3", "clang -O2", "clang -O3"], compilers(run)))
    if run.sizes[-1] == LARGEST:
        yield list(table(["bar", "least found", "where", "met"], bars(run)))


def with_table(lines, new):
    """The document's lines with a table in the place of the one with the same head."""
    start = lines.index(new[0])
    end = start
    while end < len(lines) and lines[end].startswith("|"):
        end += 1
    return lines[:start] + new + lines[end:]


def main(path, document=None, write=None):
    run = Run(path)
    if write is not None and not run.native:
        sys.exit(f"{path}: not a native run: its times say nothing")
    if document is None:
        print("\n\n".join("\n".join(lines) for lines in tables(run)))
        return 0
    with open(document, encoding="utf-8") as file:
        lines = file.read().split("\n")
    changed = lines
    for new in tables(run):
        if new[0] not in lines:
            sys.exit(f"{document}: there is no table with the head {new[0]}")
        changed = with_table(changed, new)
    if write is not None:
        with open(document, "w", encoding="utf-8") as file:
            file.write("\n".join(changed))
    elif changed != lines:
        sys.exit(f"{document}: a table is another than that of {path}")
    return 0


if len(sys.argv) not in (2, 3, 4) or sys.argv[3:] not in ([], ["write"]):
    sys.exit(__doc__)
sys.exit(main(*sys.argv[1:]))
