"""figures.py: the file that bench writes, read for picture.py and tables.py."""
import csv

LIBRARY = "library"
OTHERS = ["plain C", "plain Rust", "queue C"]


class Run:
    """The times of a run in nanoseconds, by kind, number of regions, program and compiler."""

    def __init__(self, path):
        with open(path, encoding="utf-8") as file:
            lines = file.read().splitlines()
        self.about = [line[2:] for line in lines if line.startswith("# ")]
        self.native = "run natively" in self.about
        self.kinds = {}  # the number that each kind is answered with
        self.rounds = {}
        self.networks = {}
        self.times = {}
        for row in csv.DictReader(line for line in lines if not line.startswith("#")):
            kind, n = row["kind"], int(row["n"])
            self.kinds[kind] = int(row["number"])
            self.rounds[kind, n] = float(row["rounds"])
            self.networks[kind, n] = int(row["networks"])
            made = self.times.setdefault((kind, n, row["program"]), {})
            made[(row["compiler"].split(" ")[0] + " " + row["flags"]).strip()] = float(row["nanoseconds"])
        self.sizes = sorted({n for _, n in self.rounds})
        self.others = [program for program in OTHERS if any(key[2] == program for key in self.times)]
        if not self.times:
            raise ValueError(f"{path}: no times")

    def accepted(self):
        return [kind for kind, number in self.kinds.items() if number == 0]

    def refused(self):
        return [kind for kind, number in self.kinds.items() if number != 0]

    def best(self, kind, n, program):
        """The least time of a program by any compiler, and that compiler with its flags."""
        made = self.times[kind, n, program]
        by = min(made, key=made.get)
        return made[by], by

    def times_library(self, kind, n, program):
        """How many times the library's time the program took, by its best compiler."""
        return self.best(kind, n, program)[0] / self.best(kind, n, LIBRARY)[0]
