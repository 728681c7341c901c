"""refinement.py: the refinement of a matrix as document 01 says it, over the paper's Table 1 in letters (table.py), for what is expected of
the cases. Plain and slow."""
import functools

import table

TABLE = table.document_rows()
OPPOSITE = [0, 1, 2, 5, 6, 3, 4, 7]


def members(cell):
    return [relation for relation in range(8) if cell >> relation & 1]


def union(cells):
    return functools.reduce(int.__or__, cells, 0)


@functools.lru_cache(maxsize=None)
def converse(cell):
    return union(1 << OPPOSITE[relation] for relation in members(cell))


@functools.lru_cache(maxsize=None)
def compose(a, b):
    return union(TABLE[p][q] for p in members(a) for q in members(b))


def run_empty(old, n, i, j):
    """The least k at which old (i, j), intersected with the compositions through 0 to k, has run empty."""
    left = old[i * n + j]
    for k in range(n):
        left &= compose(old[i * n + k], old[k * n + j])
        if left == 0:
            return k
    raise ValueError("the cell did not run empty")


def rounds(n, cells):
    """Rounds until one changes nothing or leaves a cell empty: the answer's numbers, and the network."""
    count = 0
    while True:
        new = [functools.reduce(int.__and__, (compose(cells[i * n + k], cells[k * n + j]) for k in range(n)))
               for i in range(n) for j in range(n)]
        if 0 in new:
            i, j = divmod(new.index(0), n)
            return [23, i, run_empty(cells, n, i, j), j, count + 1], []
        if new == cells:
            return [0, 0, 0, 0, count], new
        cells, count = new, count + 1


def refine(n, cells):
    """The five numbers of the answer, work areas being long enough, and the network, none for a refusal."""
    if not 1 <= n <= 64:
        return [1, 0, 0, 0, 0], []
    if len(cells) != n * n:
        return [2, 0, 0, 0, 0], []
    node = [cell & 4 if place % (n + 1) == 0 else cell for place, cell in enumerate(cells)]
    for i in range(n):
        if node[i * n + i] == 0:
            return [21, i, 0, 0, 0], []
    arc = [node[i * n + j] & converse(node[j * n + i]) for i in range(n) for j in range(n)]
    if 0 in arc:
        i, j = divmod(arc.index(0), n)
        return [22, i, j, 0, 0], []
    return rounds(n, arc)
