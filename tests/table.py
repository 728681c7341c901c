#!/usr/bin/env python3
"""table.py [TOP]: compares Table 1 of document 004, here in the document's letters, with the table of the definition, and each of the
2,048 entries of the code's table with the union of the letters that it stands for. TOP is the repository's top, by default the folder
above this script's."""
import os
import re
import sys

# The columns in the order of the bits, from value 1 upward.
ORDER = ["d", "m", "e", "i", "cB", "ct", "cv", "o"]

# A row for each relation of A to B, in the order of the columns; U is the universal relation.
TABLE = """
d  | U               | d, m, i, cB, o     | d  | d, m, i, cB, o      | d, m, i, cB, o | d               | d                  | d, m, i, cB, o
m  | d, m, ct, cv, o | d, m, e, cB, cv, o | m  | i, cB, o            | m, i, cB, o    | d               | d, m               | d, m, i, cB, o
e  | d               | m                  | e  | i                   | cB             | ct              | cv                 | o
i  | d               | d                  | i  | i                   | i              | U               | d, m, i, cB, o     | d, m, i, cB, o
cB | d               | d, m               | cB | i                   | i, cB          | d, m, ct, cv, o | d, m, e, cB, cv, o | d, m, i, cB, o
ct | d, m, ct, cv, o | ct, cv, o          | ct | e, i, cB, ct, cv, o | ct, cv, o      | ct              | ct                 | ct, cv, o
cv | d, m, ct, cv, o | m, ct, cv, o       | cv | i, cB, o            | e, cB, cv, o   | ct              | ct, cv             | ct, cv, o
o  | d, m, ct, cv, o | d, m, ct, cv, o    | o  | i, cB, o            | i, cB, o       | d, m, ct, cv, o | d, m, ct, cv, o    | U
"""


def byte_of(entry):
    """The set of an entry's letters as a byte: a bit for each relation."""
    if entry == "U":
        return 255
    letters = [letter.strip() for letter in entry.split(",")]
    if len(set(letters)) != len(letters):
        raise ValueError("a letter stands twice in: " + entry)
    return sum(1 << ORDER.index(letter) for letter in letters)


def document_rows():
    """Table 1 as rows of bytes."""
    rows = []
    for place, line in enumerate(TABLE.strip().split("\n")):
        name, *entries = [field.strip() for field in line.split("|")]
        if name != ORDER[place] or len(entries) != 8:
            raise ValueError("no row of eight entries for " + ORDER[place] + ": " + line)
        rows.append([byte_of(entry) for entry in entries])
    return rows


def rows_after(path, start, end, row):
    """The rows of numbers that stand between two marks of a file, each found by a pattern."""
    with open(path, encoding="utf-8") as source:
        text = source.read()
    if text.count(start) != 1:
        raise ValueError(path + ": not exactly one place with: " + start.strip())
    begin = text.index(start) + len(start)
    part = text[begin : text.index(end, begin)]
    return [[int(number) for number in re.findall(r"\d+", found)] for found in re.findall(row, part)]


def union(sets):
    """The set of the members of any of the sets."""
    members = 0
    for found in sets:
        members |= found
    return members


def composed(left, right, wanted):
    """A set composed with one relation, by Table 1."""
    return union(wanted[p][right] for p in range(8) if left >> p & 1)


def entry_differences(name, rows, wanted):
    """A line for each of the code's entries, eight to a left set, that is not what Table 1 makes of it."""
    entries = [number for row in rows for number in row]
    if len(entries) != 256 * 8:
        return [name + ": not 2,048 entries, but " + str(len(entries))]
    return [
        f"{name}: set {place // 8} composed with {ORDER[place % 8]} is {entry}, by Table 1 {composed(place // 8, place % 8, wanted)}"
        for place, entry in enumerate(entries)
        if entry != composed(place // 8, place % 8, wanted)
    ]


def differences(name, rows, wanted):
    """A line for each entry in which a table differs from Table 1."""
    if [len(row) for row in rows] != [8] * 8:
        return [name + ": not eight rows of eight entries, but " + str([len(row) for row in rows])]
    return [
        f"{name}: {ORDER[p]} composed with {ORDER[q]} is {rows[p][q]}, in Table 1 {wanted[p][q]}"
        for p in range(8)
        for q in range(8)
        if rows[p][q] != wanted[p][q]
    ]


def main():
    here = os.path.dirname(os.path.abspath(__file__))
    top = sys.argv[1] if len(sys.argv) > 1 else os.path.dirname(here)
    crate = os.path.join(top, "crates", "relation")
    wanted = document_rows()
    tables = [
        ("specs/Composition.antt", ("\nrows =\n", "\n\n", r"\(([^()]*)\)"), differences),
        ("src/table.rt", ("const COMPOSITIONS: [u8; 2048] = [\n", "\n];", r"(?m)^ *((?:\d+, *){8})//"), entry_differences),
    ]
    found = []
    for name, marks, compare in tables:
        try:
            found += compare(name, rows_after(os.path.join(crate, name), *marks), wanted)
        except (OSError, ValueError) as wrong:
            found.append(name + ": " + str(wrong))
    for line in found:
        print(line)
    if found:
        sys.exit(1)
    print("table: 64 entries of the definition and 2,048 of the code agree")


if __name__ == "__main__":
    main()
