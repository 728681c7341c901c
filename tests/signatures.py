#!/usr/bin/env python3
"""signatures.py: compares every exported call, as the Rattle sources of crates/chachaqom declare it, with its prototype in
include/chachaqom.h: the same calls, and of each the result and the parameters in their order, a slice being a pointer and a length in bytes,
const behind a & and not const behind a &mut. Neither the prover nor a C compiler sees both sides. Altered copies of either side must differ."""
import pathlib
import re
import sys

TOP = pathlib.Path(__file__).resolve().parent.parent
NUMBERS = {"u8": "uint8_t", "u32": "uint32_t", "u64": "uint64_t", "usize": "size_t"}
SLICES = {"&[u8]": "const uint8_t *", "&mut [u8]": "uint8_t *"}

EXPORT = re.compile(r'#\[unsafe\(no_mangle\)\]\s*pub extern "C" fn (\w+)\(([^)]*)\)(?:\s*->\s*(\w+))?')
PROTOTYPE = re.compile(r"^(\w[\w ]*[ *])(chachaqom_\w+)\(([^)]*)\);", re.M)


def without_comments(text, line):
    return re.sub(line + r"[^\n]*", "", text)


def crossing(name, kind):
    """How a parameter of Rattle crosses to C: its C parameters, each a type and a name."""
    if kind in NUMBERS:
        return [(NUMBERS[kind], name)]
    if kind in SLICES:
        return [(SLICES[kind], name), ("size_t", name + "_length")]
    raise ValueError(f"{name}: no C parameter is known for {kind}")


def exported(source):
    """The exported calls: for each its result and its C parameters."""
    calls = {}
    for name, parameters, result in EXPORT.findall(without_comments(source, "//")):
        crossed = []
        for parameter in filter(None, (p.strip() for p in parameters.split(","))):
            crossed += crossing(*(part.strip() for part in parameter.split(":")))
        calls[name] = (NUMBERS[result] if result else "void", crossed)
    return calls


def declared(header):
    """The same of the header's prototypes."""
    text = re.sub(r"/\*.*?\*/", "", header, flags=re.S)
    calls = {}
    for result, name, parameters in PROTOTYPE.findall(text):
        taken = []
        for parameter in parameters.split(","):
            kind, own = re.fullmatch(r"\s*(.*?[ *])(\w+)\s*", parameter, re.S).groups()
            taken.append((" ".join(kind.split()), own))
        calls[name] = (result.strip(), taken)
    return calls


def differences(source, header):
    """What differs between the two, a line each."""
    here, there = exported(source), declared(header)
    lines = [f"{name} is exported and not declared" for name in sorted(here.keys() - there.keys())]
    lines += [f"{name} is declared and not exported" for name in sorted(there.keys() - here.keys())]
    for name in sorted(here.keys() & there.keys()):
        if here[name] != there[name]:
            lines.append(f"{name}: exported as {here[name]}, declared as {there[name]}")
    return lines


# Copies that must differ: the side, what is replaced in it, and by what.
ALTERED = [
    ("header", "size_t n, const uint8_t *cells, size_t cells_length", "const uint8_t *cells, size_t cells_length, size_t n"),
    ("header", "const uint8_t *scene, size_t scene_length", "size_t scene_length, const uint8_t *scene"),
    ("header", "uint8_t *first, size_t first_length,", "uint8_t *first,"),
    ("header", "const uint8_t *scene", "uint8_t *scene"),
    ("header", "uint8_t *buffer, size_t buffer_length", "const uint8_t *buffer, size_t buffer_length"),
    ("header", "size_t scene_length", "uint32_t scene_length"),
    ("header", "uint32_t chachaqom_write(", "uint8_t chachaqom_write("),
    ("header", "uint32_t chachaqom_refine(", "uint32_t chachaqom_refined("),
    ("header", "size_t n, size_t area, size_t rounds", "size_t n, size_t rounds, size_t area"),
    ("header", "size_t n, size_t area, size_t rounds", "size_t n, uint32_t area, size_t rounds"),
    ("source", "    rounds: usize,", "    rounds: u32,"),
    ("source", "    first: &mut [u8],\n    second: &mut [u8],", "    second: &mut [u8],\n    first: &mut [u8],"),
    ("source", "    scene: &[u8],", "    scene: &mut [u8],"),
    ("source", "    n: usize,", "    n: u32,"),
    ("source", '#[unsafe(no_mangle)]\npub extern "C" fn chachaqom_read(', "pub fn chachaqom_read("),
    ("source", "    answer: &mut [u8],\n) -> u32\n", "    answer: &mut [u8],\n) -> usize\n"),
]


def unnoticed(source, header):
    """The altered copies that cannot be made, or that seem to agree."""
    missed = []
    for side, old, new in ALTERED:
        text = header if side == "header" else source
        altered = text.replace(old, new, 1)
        found = differences(source, altered) if side == "header" else differences(altered, header)
        if altered == text or not found:
            missed.append(f"{side}: {new!r} in place of {old!r} is not noticed")
    return missed


def main():
    files = sorted((TOP / "crates" / "chachaqom" / "src").glob("**/*.rt"))
    source = "\n".join(path.read_text() for path in files)
    header = (TOP / "include" / "chachaqom.h").read_text()
    missed = unnoticed(source, header)
    wrong = differences(source, header) + missed
    if len(re.findall(r"#\[unsafe\(no_mangle\)\]", without_comments(source, "//"))) != len(exported(source)):
        wrong.append("an export has a form that is not known here")
    print(*(f"signatures: {line}" for line in wrong), sep="\n", end="\n" if wrong else "")
    print(f"signatures: {len(exported(source))} calls, {len(wrong)} wrong; {len(ALTERED) - len(missed)} altered copies noticed")
    return 1 if wrong else 0


sys.exit(main())
