#!/usr/bin/env python3
"""scenes.py [--check]: writes the scenes of crates/cases (data/, args) and all that the program must print (stdout). Each scene is built record
by record from document 01, with the answer that the document states for it. What is expected of the matrices is worked out here, by the
document's rules and the paper's table (refinement.py). With --check nothing is written, and the files must hold just that."""
import pathlib
import sys

sys.dont_write_bytecode = True
import refinement  # noqa: E402

CASES = pathlib.Path(__file__).resolve().parent.parent / "crates" / "cases"


def number(value):
    return value.to_bytes(4, "big")


def region(identifier):
    return b"\x01" + number(identifier)


def statement(a, b, cell):
    return b"\x02" + number(a) + number(b) + bytes([cell])


END = b"\x03"
EXAMPLE = region(7) + region(9) + region(4)
SPOKEN = statement(7, 9, 8) + statement(9, 4, 8)


def regions(count):
    return b"".join(region(1000 + k) for k in range(count))


def statements(count):
    """Statements of 254 from the first region to the second: together one cell that lacks disjoint."""
    return statement(1000, 1001, 254) * count


def accepted(count, total, shown=""):
    return f"0 0 {count}, sum of the cells {total}{shown}\n  record 0:"


def refused(number, place, record):
    """The answer, cleared cells, and the refused record's length and first ten bytes."""
    shown = "".join(f" {byte:02x}" for byte in record[:10])
    return f"{number} {place} 0, sum of the cells 0\n  record {len(record)}:{shown}"


SCENES = [
    ("example", EXAMPLE + SPOKEN + END,
     accepted(3, 2 * 8 + 7 * 255, ", identifiers 7 9 4 0, cells 255 8 255 255 255 8 255 255 255 0, marks 0 1 0 0 0 2 0 0 0 0")),
    ("both_ways", region(5) + region(6) + statement(5, 6, 24) + statement(6, 5, 33) + END, accepted(2, 255 + 24 + 33 + 255)),
    ("clashing", region(5) + region(6) + statement(5, 6, 8) + statement(5, 6, 32) + END, accepted(2, 3 * 255)),
    ("to_itself", region(5) + statement(5, 5, 251) + END, accepted(1, 251)),
    ("longest", regions(63) + statements(3245) + END, accepted(63, 63 * 63 * 255 - 1)),
    ("most_regions", regions(64) + statements(3244) + END, accepted(64, 64 * 64 * 255 - 1)),
    ("no_region", END, refused(1, 0, END)),
    ("no_region_bytes_behind", END + b"\x01\x02", refused(1, 0, END)),
    ("over_the_limit", b"\x00" * 32769, refused(3, 32768, b"")),
    ("far_over_the_limit", regions(63) + statements(3245) + END + b"\x03" * 200, refused(3, 32768, b"")),
    ("empty", b"", refused(4, 0, b"")),
    ("no_end", EXAMPLE, refused(4, 15, b"")),
    ("region_cut", EXAMPLE[:-1], refused(4, 10, region(4)[:-1])),
    ("statement_cut", EXAMPLE + SPOKEN[:-1], refused(4, 25, statement(9, 4, 8)[:-1])),
    ("limit_cut", regions(63) + statements(3245) + b"\x01\x00\x00", refused(4, 32765, b"\x01\x00\x00")),
    ("limit_bytes_left", regions(63) + statements(3245) + END + b"\x00\x00", refused(11, 32766, b"\x00\x00")),
    ("kind_zero", b"\x00", refused(5, 0, b"\x00")),
    ("kind_four", EXAMPLE + b"\x04\x00\x00\x00\x07", refused(5, 15, b"\x04")),
    ("zero_declared", region(0) + END, refused(6, 0, region(0))),
    ("zero_declared_twice", region(1) + region(0) + region(0), refused(6, 5, region(0))),
    ("repeated", region(7) + region(9) + region(9) + SPOKEN + END, refused(7, 10, region(9))),
    ("repeated_after_statement", region(7) + statement(7, 7, 4) + region(7) + END, refused(7, 15, region(7))),
    ("region_new", regions(64) + region(1064) + END, refused(8, 320, region(1064))),
    ("region_new_at_end", regions(64) + statements(2) + region(9), refused(8, 340, region(9))),
    ("region_repeated", regions(64) + region(1063) + END, refused(7, 320, region(1063))),
    ("from_undeclared", region(7) + statement(8, 7, 1) + END, refused(9, 5, statement(8, 7, 1))),
    ("to_undeclared", region(7) + statement(7, 8, 1) + END, refused(9, 5, statement(7, 8, 1))),
    ("zero_undeclared", region(7) + statement(7, 0, 0), refused(9, 5, statement(7, 0, 0))),
    ("place_for_identifier", region(7) + region(9) + statement(0, 1, 8) + END, refused(9, 10, statement(0, 1, 8))),
    ("empty_set", region(7) + statement(7, 7, 0) + END, refused(10, 5, statement(7, 7, 0))),
    ("empty_set_later", EXAMPLE + SPOKEN + statement(4, 7, 0), refused(10, 35, statement(4, 7, 0))),
    ("bytes_left", EXAMPLE + END + b"\x03", refused(11, 16, b"\x03")),
    ("records_left", EXAMPLE + END + SPOKEN, refused(11, 16, SPOKEN)),
]


# Matrices: a name, n, how many cells are lent, and those that are not 255, by row and column.
MATRICES = [
    ("example 12", 4, 16, {(0, 1): 8, (1, 2): 8, (2, 3): 8}),
    ("example 13", 4, 16, {(0, 1): 32, (1, 2): 2, (0, 3): 1, (3, 2): 128}),
    ("example 14", 4, 16, {(0, 3): 128, (1, 3): 128, (2, 1): 8, (2, 0): 1}),
    ("example 15", 3, 9, {(1, 2): 155, (1, 0): 64, (0, 2): 2}),
    ("along a triple", 4, 16, {(0, 2): 64, (0, 3): 2, (1, 2): 2, (1, 3): 16, (2, 3): 129}),
    ("without an arrangement", 4, 16, {(0, 1): 44, (0, 2): 80, (0, 3): 80, (1, 2): 129, (1, 3): 196, (2, 3): 40}),
    ("at a region", 3, 9, {(1, 1): 251}),
    ("at a pair", 3, 9, {(0, 2): 8, (2, 0): 8}),
    ("64 regions", 64, 4096, {}),
    ("64 regions, a cell short", 64, 4095, {}),
    ("63 regions, cells of 64", 63, 4096, {}),
    ("no region", 0, 0, {}),
    ("65 regions", 65, 4096, {}),
    ("2^32 regions", 2**32, 0, {}),
    ("the most a number holds", 2**64 - 1, 1, {}),
]


def matrix(name, n, count, stated):
    """The two lines of a matrix: the answer, with both areas untouched behind what is filled, and the network."""
    cells = [255] * count
    for (row, column), cell in stated.items():
        cells[row * n + column] = cell
    numbers, network = refinement.refine(n, cells)
    shown = network if len(network) <= 16 else [sum(network)]
    first = " ".join([name + ":", *map(str, numbers), "first kept second kept"])
    return first + "\n" + " ".join([f"  network {len(network)}:", *map(str, shown)]) + "\n"


def files():
    """Every file of the cases that this script answers for."""
    made = {f"data/{name}": scene for name, scene, _ in SCENES}
    made["args"] = "".join(name + "\n" for name, _, _ in SCENES).encode()
    matrices = "".join(matrix(*given) for given in MATRICES)
    short = "".join(f"{what}: 2 0 0, sum of the cells {7 * cells}\n" for what, cells in (("63 identifiers", 4096), ("4095 cells", 4095), ("4095 marks", 4096)))
    lines = "".join(f"{name}: {line}\n" for name, _, line in SCENES)
    made["stdout"] = (matrices + short + lines).encode()
    return made


def main():
    lengths = {name: len(scene) for name, scene, _ in SCENES}
    assert lengths["longest"] == 32766 and lengths["limit_cut"] == lengths["limit_bytes_left"] == 32768
    wrong = 0
    for name, content in files().items():
        path = CASES / name
        if "--check" not in sys.argv[1:]:
            path.parent.mkdir(exist_ok=True)
            path.write_bytes(content)
        elif not path.exists() or path.read_bytes() != content:
            print("scenes:", path, "is not what the script makes")
            wrong += 1
    print(f"scenes: {len(MATRICES)} matrices, {len(SCENES)} scenes" + ("" if wrong == 0 else f", {wrong} files differ"))
    return 1 if wrong else 0


sys.exit(main())
