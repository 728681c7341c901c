/* networks.c: cells to state, of many styles: sparse, true of rectangles, chains, clashes. */
#include "compare.h"

/* A set of one to four relations, seldom an empty one. */
uint8_t few_relations(void)
{
    size_t count = 1 + below(4);
    uint8_t set = 0;

    if (once_in(2000))
        return CHACHAQOM_EMPTY;
    while (count-- > 0)
        set = (uint8_t)(set | 1u << below(8));
    return set;
}

static uint8_t converse_of(uint8_t set)
{
    unsigned smaller = set & (CHACHAQOM_INSIDE | CHACHAQOM_COVERED_BY);
    unsigned larger = set & (CHACHAQOM_CONTAINS | CHACHAQOM_COVERS);

    return (uint8_t)((set & ~(smaller | larger)) | smaller << 2 | larger >> 2);
}

/* States a set of i towards j: in that direction, in the other, or in both. */
static void state_pair(uint8_t *cells, size_t n, size_t i, size_t j, uint8_t set)
{
    size_t direction = below(5);

    if (direction != 0)
        cells[i * n + j] &= set;
    if (direction < 2)
        cells[j * n + i] &= converse_of(set);
}

/* About four to twelve statements a region: where accepting turns into refusing. */
void state_sparsely(uint8_t *cells, size_t n)
{
    size_t degree = 4 + below(9), i, j;

    for (i = 0; i < n; i++)
        for (j = i + 1; j < n; j++)
            if (below(n) < degree)
                state_pair(cells, n, i, j, few_relations());
}

struct rectangle {
    size_t left, right, bottom, top;
};

static struct rectangle random_rectangle(size_t side)
{
    struct rectangle r;

    r.left = below(side);
    r.right = r.left + 1 + below(side - r.left);
    r.bottom = below(side);
    r.top = r.bottom + 1 + below(side - r.bottom);
    return r;
}

static int within(struct rectangle a, struct rectangle b)
{
    return a.left >= b.left && a.right <= b.right && a.bottom >= b.bottom && a.top <= b.top;
}

static int well_within(struct rectangle a, struct rectangle b)
{
    return a.left > b.left && a.right < b.right && a.bottom > b.bottom && a.top < b.top;
}

static uint8_t relation_of(struct rectangle a, struct rectangle b)
{
    if (a.right < b.left || b.right < a.left || a.top < b.bottom || b.top < a.bottom)
        return CHACHAQOM_DISJOINT;
    if (a.right == b.left || b.right == a.left || a.top == b.bottom || b.top == a.bottom)
        return CHACHAQOM_MEET;
    if (within(a, b) && within(b, a))
        return CHACHAQOM_EQUAL;
    if (within(a, b))
        return well_within(a, b) ? CHACHAQOM_INSIDE : CHACHAQOM_COVERED_BY;
    if (within(b, a))
        return well_within(b, a) ? CHACHAQOM_CONTAINS : CHACHAQOM_COVERS;
    return CHACHAQOM_OVERLAP;
}

/* Statements that are true of rectangles in the plane: such a network is never refused. */
void state_rectangles(uint8_t *cells, size_t n)
{
    struct rectangle rectangles[CHACHAQOM_REGIONS_LIMIT];
    size_t side = 2 + below(n + 4), part = 1 + below(8), i, j;

    for (i = 0; i < n; i++)
        rectangles[i] = random_rectangle(side);
    for (i = 0; i < n; i++)
        for (j = i + 1; j < n; j++)
            if (below(8) < part) {
                uint8_t set = relation_of(rectangles[i], rectangles[j]);

                state_pair(cells, n, i, j, once_in(2) ? set : (uint8_t)(set | few_relations()));
            }
}

/* Each region towards the next, in place order or shuffled: many rounds. */
void state_chain(uint8_t *cells, size_t n)
{
    static const uint8_t links[] = {
        CHACHAQOM_INSIDE, CHACHAQOM_COVERED_BY, CHACHAQOM_INSIDE | CHACHAQOM_COVERED_BY,
        CHACHAQOM_CONTAINS, CHACHAQOM_COVERS, CHACHAQOM_EQUAL, CHACHAQOM_MEET
    };
    uint8_t usual = links[below(sizeof links)];
    size_t order[CHACHAQOM_REGIONS_LIMIT], i;
    int shuffled = once_in(2);

    for (i = 0; i < n; i++) {
        size_t j = shuffled ? below(i + 1) : i;

        order[i] = i;
        order[i] = order[j];
        order[j] = i;
    }
    for (i = 0; i + 1 < n; i++)
        state_pair(cells, n, order[i], order[i + 1],
                   once_in(6) ? links[below(sizeof links)] : usual);
    if (n > 2 && once_in(2))
        state_pair(cells, n, order[0], order[n - 1], few_relations());
}

void state_anything(uint8_t *cells, size_t n)
{
    int dense = once_in(2);
    size_t i;

    for (i = 0; i < n * n; i++)
        cells[i] = (uint8_t)(dense ? random_word() | random_word() : random_word());
    for (i = 0; i < n; i++)
        if (!once_in(8))
            cells[i * n + i] |= CHACHAQOM_EQUAL;
}

/* A refined network with one cell changed. */
void state_refined(uint8_t *cells, size_t n)
{
    static uint8_t first[CHACHAQOM_CELLS_LENGTH], second[CHACHAQOM_CELLS_LENGTH];
    uint8_t answer[CHACHAQOM_ANSWER_LENGTH];
    int fault = second_fault;

    state_rectangles(cells, n);
    second_fault = SECOND_FAULT_NONE;
    second_refine(n, cells, n * n, first, n * n, second, n * n, answer, sizeof answer);
    second_fault = fault;
    memcpy(cells, first, n * n);
    if (!once_in(4))
        cells[below(n * n)] = few_relations();
}

/* Next to nothing stated, and that on the diagonal or empty. */
void state_blemishes(uint8_t *cells, size_t n)
{
    size_t count = below(4), i;

    for (i = 0; i < count; i++) {
        size_t region = below(n);

        if (once_in(2))
            cells[region * n + region] = (uint8_t)random_word();
        else
            cells[below(n * n)] = once_in(2) ? CHACHAQOM_EMPTY : few_relations();
    }
}

/* Four regions whose sets run out through two others together, among others hardly spoken of. */
void state_slow_clash(uint8_t *cells, size_t n)
{
    size_t start = n > 4 ? below(n - 3) : 0, i;
    uint8_t *corner = cells + start * n + start;

    if (n < 4)
        return;
    corner[2] = CHACHAQOM_COVERS;
    corner[3] = CHACHAQOM_MEET;
    corner[n + 2] = CHACHAQOM_MEET;
    corner[n + 3] = CHACHAQOM_COVERED_BY;
    corner[2 * n + 3] = CHACHAQOM_DISJOINT | CHACHAQOM_OVERLAP;
    for (i = 0; i < n && once_in(2); i++)
        state_pair(cells, n, below(n), below(n), (uint8_t)(few_relations() | few_relations()));
    for (i = 0; i < n; i++)
        cells[i * n + i] |= CHACHAQOM_EQUAL;
}

size_t random_size(void)
{
    if (once_in(250))
        return CHACHAQOM_REGIONS_LIMIT;
    if (once_in(150))
        return 33 + below(31);
    if (once_in(25))
        return 13 + below(20);
    return 1 + below(12);
}

void state_any_style(uint8_t *cells, size_t n)
{
    static state_style *const styles[] = {
        state_sparsely, state_sparsely, state_rectangles, state_rectangles, state_chain,
        state_anything, state_refined, state_blemishes, state_slow_clash
    };

    memset(cells, CHACHAQOM_UNIVERSAL, n * n);
    styles[below(COUNT_OF(styles))](cells, n);
}
