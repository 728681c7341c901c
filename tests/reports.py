#!/usr/bin/env python3
"""reports.py REPORT.. -- EXPECTED..: runs the report program and the second program's on the same scenes and compares every byte that they
print. REPORT and EXPECTED are commands. The scenes are the examples, those of the tests and of the cases, all that is left when a scene is
cut short, bytes damaged at random, and the longest of their kind. Every letter of the report and every number that can stand there must
have occurred; and the reports of each wrong program below must be noticed."""
import pathlib
import random
import re
import subprocess
import sys

TOP = pathlib.Path(__file__).resolve().parent.parent
LIMIT = 32768
NUMBERS = {b"1", b"3", b"4", b"5", b"6", b"7", b"8", b"9", b"10", b"11", b"21", b"22", b"23"}


def region(identifier):
    return b"\x01" + identifier.to_bytes(4, "big")


def statement(a, b, cell):
    return b"\x02" + a.to_bytes(4, "big") + b.to_bytes(4, "big") + bytes([cell])


def largest(cell, stated=lambda a, b: a < b):
    """64 regions with the longest identifiers, and as many statements as there is room for, of the pairs that are stated."""
    names = [2**32 - 1 - k for k in range(64)]
    pairs = [(a, b) for a in names for b in names if stated(a, b)] * 2
    room = (LIMIT - 1 - 64 * 5) // 10
    return b"".join(map(region, names)) + b"".join(statement(a, b, cell) for a, b in pairs[:room]) + b"\x03"


def whole():
    """Scenes that are given, and scenes at the limits."""
    found = sorted((TOP / "examples").glob("*.scene")) + sorted((TOP / "crates" / "cases" / "data").iterdir())
    scenes = {path.name: path.read_bytes() for path in found}
    for path in sorted((TOP / "tests" / "scenes").glob("*.txt")):
        made = subprocess.run([TOP / "tools" / "scene", "make", path], stdout=subprocess.PIPE, check=True)
        scenes[path.name] = made.stdout
    for cell in (255, 254, 128, 32, 7):
        scenes[f"the longest report, stated {cell}"] = largest(cell)
    scenes["the longest report, stated there and back"] = largest(254, lambda a, b: a != b)
    scenes["a scene of 65,536 zeros"] = bytes(65536)
    scenes["a scene of 32,768 ends"] = b"\x03" * LIMIT
    scenes["a region without equal"] = region(7) + region(9) + statement(9, 9, 251) + b"\x03"
    scenes["a pair that clashes"] = region(7) + region(9) + statement(7, 9, 8) + statement(9, 7, 8) + b"\x03"
    return scenes


def damaged(scenes):
    """Every length of the smallest example, and scenes of middle size with some bytes changed, the same at every run."""
    chance = random.Random(20231115)
    made = {}
    for length in range(len(scenes["sector.scene"])):
        made[f"sector.scene cut to {length}"] = scenes["sector.scene"][:length]
    some = [name for name, scene in sorted(scenes.items()) if 30 < len(scene) < 4000]
    for k in range(120):
        name = chance.choice(some)
        scene = bytearray(scenes[name])
        for _ in range(chance.randrange(1, 4)):
            scene[chance.randrange(len(scene))] = chance.choice((0, 1, 2, 3, 8, 251, 255))
        made[f"{name} damaged, {k}"] = bytes(scene)
    return made


def printed(command, scene):
    return subprocess.run(command, input=scene, stdout=subprocess.PIPE, check=False).stdout


def differ(name, report, expected):
    """Whether two reports differ, and where."""
    if report == expected:
        return False
    at = next((k for k, (a, b) in enumerate(zip(report, expected)) if a != b), min(len(report), len(expected)))
    print(f"reports: {name}: byte {at}: {report[at:at + 20]!r}, expected {expected[at:at + 20]!r}")
    return True


def unseen(expected):
    """The letters and numbers that occur in none of the reports."""
    lines = [line.split() for text in expected for line in text.splitlines()]
    letters = {line[3] for line in lines if line[0] not in (b"accepted", b"refused")}
    numbers = {line[1] for line in lines if line[0] == b"refused"}
    return sorted({b"O", b"D", b"E", b"S", b"U"} - letters) + sorted(NUMBERS - numbers)


# A pair's line: what stands before its two marks, and the marks.
MARKS = re.compile(rb"^(.* [A-Z]) (\d+) (\d+)$", re.M)

# Wrong programs, each by what it makes of a right report.
WRONG = {
    "a given relation called deduced": lambda text: text.replace(b" O ", b" D "),
    "a narrowed set called stated": lambda text: text.replace(b" E ", b" S "),
    "an unknown pair called stated": lambda text: text.replace(b" U ", b" S "),
    "rounds left out": lambda text: re.sub(rb"^(accepted \d+) \d+", rb"\1 0", text),
    "identifiers the other way": lambda text: re.sub(rb"^(\d+) (\d+) (\d+ [A-Z] \d+ \d+)$", rb"\2 \1 \3", text, flags=re.M),
    "the marks changed about": lambda text: MARKS.sub(rb"\1 \3 \2", text),
    "the mark there for both": lambda text: MARKS.sub(rb"\1 \2 \2", text),
    "statements numbered from 0": lambda text: MARKS.sub(lambda m: b"%s %d %s" % (m[1], max(int(m[2]) - 1, 0), m[3]), text),
    "marks of 8 bits": lambda text: MARKS.sub(lambda m: b"%s %d %d" % (m[1], int(m[2]) % 256, int(m[3]) % 256), text),
    "the triple in the author's order": lambda text: re.sub(rb"^(refused 23 \d+) (\d+) (\d+)", rb"\1 \3 \2", text),
    "a place for an identifier": lambda text: re.sub(rb"^refused 21 \d+", b"refused 21 1", text),
    "the last line without its end": lambda text: text[:-1],
    "one pair left out": lambda text: re.sub(rb"\n[^\n]*\n$", b"\n", text),
}


def unnoticed(expected):
    """The wrong programs that print what is expected of every scene."""
    return [name for name, wrong in WRONG.items() if all(wrong(text) == text for text in expected)]


def main():
    middle = sys.argv.index("--")
    report, second = sys.argv[1:middle], sys.argv[middle + 1:]
    scenes = whole()
    scenes.update(damaged(scenes))
    expected = {name: printed(second, scene) for name, scene in scenes.items()}
    wrong = sum(differ(name, printed(report, scene), expected[name]) for name, scene in scenes.items())
    missing, blind = unseen(expected.values()), unnoticed(expected.values())
    if missing:
        print("reports: occurs in none:", *(word.decode() for word in missing))
    if blind:
        print("reports: not noticed:", *blind, sep="\n  ")
    longest = max(map(len, expected.values()))
    print(f"reports: {len(scenes)} scenes, the longest report {longest} bytes, {wrong} differ; {len(WRONG)} wrong programs noticed")
    return 1 if wrong or missing or blind else 0


sys.exit(main())
