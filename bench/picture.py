#!/usr/bin/env python3
"""picture.py FILE: prints, as SVG, time against the number of regions for each program and kind of network, from the file that bench
writes. Both axes are logarithmic and the same in every field; of a program made by several compilers each point is the best."""
import math
import sys

sys.dont_write_bytecode = True
from figures import LIBRARY, Run  # noqa: E402

# Colours that stay apart for the colour-blind; marks and dashes tell the lines apart in print.
LOOKS = {
    LIBRARY: ("#0072b2", 2.6, "", "circle"),
    "queue C": ("#d55e00", 1.6, "", "square"),
    "plain C": ("#00795a", 1.6, "6 3", "triangle"),
    "plain Rust": ("#a34a7d", 1.6, "2 3", "diamond"),
}
TITLES = {
    "sparse": "sparse: 4 statements a region",
    "medium": "medium: n/4 + 2 statements a region",
    "dense": "dense: every pair stated",
    "chain": "chain: each inside the next",
    "nothing": "nothing stated",
    "clash": "refused 23: three regions clash",
    "late": "refused 23: the last three clash",
    "closed": "refused 23: a closed chain",
    "pair": "refused 22: a pair",
    "region": "refused 21: a region",
}
COLUMNS = 3
FIELD = (330, 290)  # a field with its title and axes
PLOT = (262, 218)  # the axes
CORNER = (58, 28)  # of the axes in a field
HEAD = 64


def escaped(text):
    return text.replace("&", "&amp;").replace("<", "&lt;").replace(">", "&gt;")


def label(nanoseconds):
    for unit, size in (("s", 1e9), ("ms", 1e6), ("µs", 1e3)):
        if nanoseconds >= size:
            return f"{nanoseconds / size:g} {unit}"
    return f"{nanoseconds:g} ns"


class Axes:
    """Where a number of regions and a time lie in a field."""

    def __init__(self, run):
        shown = [run.best(*key)[0] for key in run.times]
        self.sizes = run.sizes
        self.low = math.floor(math.log10(min(shown)))
        self.high = max(math.ceil(math.log10(max(shown))), self.low + 1)

    def across(self, n):
        span = max(math.log2(self.sizes[-1] / self.sizes[0]), 1)
        return CORNER[0] + 12 + (PLOT[0] - 24) * math.log2(n / self.sizes[0]) / span

    def upward(self, nanoseconds):
        return CORNER[1] + PLOT[1] * (self.high - math.log10(nanoseconds)) / (self.high - self.low)


def mark(shape, x, y, colour):
    if shape == "circle":
        return f'<circle cx="{x:.1f}" cy="{y:.1f}" r="3.6" fill="{colour}"/>'
    corners = {
        "square": [(-3, -3), (3, -3), (3, 3), (-3, 3)],
        "triangle": [(0, -4), (3.8, 3), (-3.8, 3)],
        "diamond": [(0, -4.2), (4.2, 0), (0, 4.2), (-4.2, 0)],
    }[shape]
    points = " ".join(f"{x + dx:.1f},{y + dy:.1f}" for dx, dy in corners)
    return f'<polygon points="{points}" fill="{colour}"/>'


def line(program, points):
    colour, width, dashes, shape = LOOKS[program]
    path = " ".join(f"{x:.1f},{y:.1f}" for x, y in points)
    yield f'<polyline points="{path}" fill="none" stroke="{colour}" stroke-width="{width}" stroke-dasharray="{dashes}"/>'
    for x, y in points:
        yield mark(shape, x, y, colour)


def grid(axes):
    left, right = CORNER[0], CORNER[0] + PLOT[0]
    bottom = CORNER[1] + PLOT[1]
    for power in range(axes.low, axes.high + 1):
        y = axes.upward(10.0**power)
        yield f'<line class="grid" x1="{left}" y1="{y:.1f}" x2="{right}" y2="{y:.1f}"/>'
        yield f'<text x="{left - 6}" y="{y + 4:.1f}" text-anchor="end">{label(10.0 ** power)}</text>'
    for n in axes.sizes:
        x = axes.across(n)
        yield f'<line class="grid" x1="{x:.1f}" y1="{CORNER[1]}" x2="{x:.1f}" y2="{bottom}"/>'
        yield f'<text x="{x:.1f}" y="{bottom + 15}" text-anchor="middle">{n}</text>'
    yield f'<text x="{(left + right) / 2:.0f}" y="{bottom + 30}" text-anchor="middle">regions, n</text>'


def field(run, axes, kind):
    yield f'<text class="title" x="{CORNER[0]}" y="{CORNER[1] - 9}">{escaped(TITLES.get(kind, kind))}</text>'
    yield from grid(axes)
    for program in [*run.others, LIBRARY]:
        points = [(axes.across(n), axes.upward(run.best(kind, n, program)[0])) for n in run.sizes]
        yield from line(program, points)


def legend(run):
    words = {
        LIBRARY: "the library",
        "queue C": "a queue, in C",
        "plain C": "plain rounds, in C",
        "plain Rust": "plain rounds, in Rust",
    }
    for place, program in enumerate(program for program in words if program == LIBRARY or program in run.others):
        y = CORNER[1] + 40 + 26 * place
        yield from line(program, [(CORNER[0], y), (CORNER[0] + 44, y)])
        yield f'<text class="title" x="{CORNER[0] + 56}" y="{y + 4}">{words[program]}</text>'


def moved(place, parts):
    x, y = FIELD[0] * (place % COLUMNS), HEAD + FIELD[1] * (place // COLUMNS)
    return [f'<g transform="translate({x} {y})">', *parts, "</g>"]


def picture(run):
    """Accepted kinds, the legend behind them, then refused kinds from a new row on."""
    axes = Axes(run)
    shown = [list(field(run, axes, kind)) for kind in run.accepted()] + [list(legend(run))]
    shown += [[]] * (-len(shown) % COLUMNS) + [list(field(run, axes, kind)) for kind in run.refused()]
    width, height = FIELD[0] * COLUMNS + 12, HEAD + FIELD[1] * math.ceil(len(shown) / COLUMNS)
    yield f'<svg xmlns="http://www.w3.org/2000/svg" width="{width}" height="{height}" viewBox="0 0 {width} {height}">'
    yield "<style>text { font: 12px sans-serif; fill: #222 } .title { font-size: 13px } .head { font-size: 17px; font-weight: bold }"
    yield ".grid { stroke: #ddd; stroke-width: 1 }</style>"
    yield f'<rect width="{width}" height="{height}" fill="#fff"/>'
    yield '<text class="head" x="16" y="26">Time of one refinement against the number of regions</text>'
    how = "native run" if run.native else "run under an emulator: these times say nothing"
    yield f'<text x="16" y="46">{how}; both axes logarithmic; C by the compiler and flags that are best at each point</text>'
    for place, parts in enumerate(shown):
        yield from moved(place, parts)
    yield "</svg>"


if len(sys.argv) != 2:
    sys.exit(__doc__)
print("\n".join(picture(Run(sys.argv[1]))))
