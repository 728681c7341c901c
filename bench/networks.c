/*
 * networks.c: the networks that are timed. Half of the kinds are accepted, half refused.
 */
#include "networks.h"

#include "chachaqom.h"

#include <string.h>

static uint64_t random_state;

static size_t below(size_t limit)
{
    random_state = random_state * UINT64_C(6364136223846793005) + UINT64_C(1442695040888963407);
    return (size_t)((random_state >> 33) % limit);
}

/* The regions in any order, so that no kind has its statements always in the same cells. */
static void shuffle(size_t n, size_t *order)
{
    size_t i;

    for (i = 0; i < n; i++) {
        size_t other = below(i + 1);

        order[i] = order[other];
        order[other] = i;
    }
}

/* ---- rectangles ---- */

struct interval {
    size_t low, high;
};

/* Two intervals: 0 apart, 1 touching, 2 with common inner points. */
static int meeting(struct interval a, struct interval b)
{
    if (a.high < b.low || b.high < a.low)
        return 0;
    return a.high == b.low || b.high == a.low ? 1 : 2;
}

/* An interval in another: 0 no, 1 touching an end, 2 away from both. */
static int within(struct interval a, struct interval b)
{
    if (a.low < b.low || a.high > b.high)
        return 0;
    return a.low == b.low || a.high == b.high ? 1 : 2;
}

static int least(int a, int b)
{
    return a < b ? a : b;
}

/* A region is a rectangle, one interval across and one upward. */
struct rectangle {
    struct interval across, upward;
};

static uint8_t relation_of(struct rectangle a, struct rectangle b)
{
    int common = least(meeting(a.across, b.across), meeting(a.upward, b.upward));
    int in = least(within(a.across, b.across), within(a.upward, b.upward));
    int around = least(within(b.across, a.across), within(b.upward, a.upward));

    if (common < 2)
        return common == 0 ? CHACHAQOM_DISJOINT : CHACHAQOM_MEET;
    if (in > 0 && around > 0)
        return CHACHAQOM_EQUAL;
    if (in > 0)
        return in == 2 ? CHACHAQOM_INSIDE : CHACHAQOM_COVERED_BY;
    if (around > 0)
        return around == 2 ? CHACHAQOM_CONTAINS : CHACHAQOM_COVERS;
    return CHACHAQOM_OVERLAP;
}

static struct interval random_interval(size_t side)
{
    struct interval interval;

    interval.low = below(side - 1);
    interval.high = interval.low + 1 + below(side - 1 - interval.low);
    return interval;
}

/*
 * States of rectangles what is true of them, with one other relation in half of the statements;
 * each region takes part in about `degree` statements.
 */
static void state_rectangles(size_t n, uint8_t *cells, size_t degree)
{
    struct rectangle rectangles[CHACHAQOM_REGIONS_LIMIT];
    size_t i, j;

    for (i = 0; i < n; i++) {
        rectangles[i].across = random_interval(2 * n);
        rectangles[i].upward = random_interval(2 * n);
    }
    for (i = 0; i < n; i++)
        for (j = i + 1; j < n; j++)
            if (below(n - 1) < degree) {
                uint8_t set = relation_of(rectangles[i], rectangles[j]);

                cells[i * n + j] = (uint8_t)(below(2) == 0 ? set : set | 1u << below(8));
            }
}

/* ---- kinds that are accepted ---- */

static void state_sparse(size_t n, uint8_t *cells)
{
    state_rectangles(n, cells, 4);
}

static void state_medium(size_t n, uint8_t *cells)
{
    state_rectangles(n, cells, n / 4 + 2);
}

static void state_dense(size_t n, uint8_t *cells)
{
    state_rectangles(n, cells, n);
}

/* Each region inside the next of an order. */
static void state_in_order(size_t n, uint8_t *cells, const size_t *order)
{
    size_t i;

    for (i = 0; i + 1 < n; i++)
        cells[order[i] * n + order[i + 1]] = CHACHAQOM_INSIDE;
}

static void state_chain(size_t n, uint8_t *cells)
{
    size_t order[CHACHAQOM_REGIONS_LIMIT];

    shuffle(n, order);
    state_in_order(n, cells, order);
}

static void state_nothing(size_t n, uint8_t *cells)
{
    (void)n;
    (void)cells;
}

/* ---- kinds that are refused ---- */

/* A medium network with two statements that a third one, whatever else is stated, contradicts. */
static void state_clash_of(size_t n, uint8_t *cells, size_t a, size_t b, size_t c)
{
    state_medium(n, cells);
    cells[a * n + b] = cells[b * n + c] = CHACHAQOM_CONTAINS;
    cells[a * n + c] = CHACHAQOM_MEET;
    cells[b * n + a] = cells[c * n + b] = cells[c * n + a] = CHACHAQOM_UNIVERSAL;
}

/* Between any three regions: refused with 23. */
static void state_clash(size_t n, uint8_t *cells)
{
    size_t order[CHACHAQOM_REGIONS_LIMIT];

    shuffle(n, order);
    state_clash_of(n, cells, order[0], order[1], order[2]);
}

/* Between the last three, which row order comes to last: refused with 23. */
static void state_late(size_t n, uint8_t *cells)
{
    state_clash_of(n, cells, n - 3, n - 2, n - 1);
}

/* A chain whose last region is inside the first: refused with 23, in a late round. */
static void state_closed(size_t n, uint8_t *cells)
{
    size_t order[CHACHAQOM_REGIONS_LIMIT];

    shuffle(n, order);
    state_in_order(n, cells, order);
    cells[order[n - 1] * n + order[0]] = CHACHAQOM_INSIDE;
}

/* Two regions each inside the other: refused with 22, before any round. */
static void state_pair(size_t n, uint8_t *cells)
{
    size_t order[CHACHAQOM_REGIONS_LIMIT];

    shuffle(n, order);
    state_medium(n, cells);
    cells[order[0] * n + order[1]] = cells[order[1] * n + order[0]] = CHACHAQOM_INSIDE;
}

/* A region disjoint from itself: refused with 21, before anything else. */
static void state_region(size_t n, uint8_t *cells)
{
    size_t region = below(n);

    state_medium(n, cells);
    cells[region * n + region] = CHACHAQOM_DISJOINT;
}

const struct kind kinds[KINDS] = {
    { "sparse", CHACHAQOM_ACCEPTED, 0, state_sparse }, { "medium", CHACHAQOM_ACCEPTED, 0, state_medium },
    { "dense", CHACHAQOM_ACCEPTED, 0, state_dense },   { "chain", CHACHAQOM_ACCEPTED, 0, state_chain },
    { "nothing", CHACHAQOM_ACCEPTED, 1, state_nothing },
    { "clash", CHACHAQOM_PATH, 0, state_clash },       { "late", CHACHAQOM_PATH, 0, state_late },
    { "closed", CHACHAQOM_PATH, 0, state_closed },     { "pair", CHACHAQOM_ARC, 0, state_pair },
    { "region", CHACHAQOM_NODE, 0, state_region }
};

void make_networks(const struct kind *kind, size_t n, size_t count, uint8_t *cells)
{
    size_t which;

    random_state = n;
    memset(cells, CHACHAQOM_UNIVERSAL, count * n * n);
    for (which = 0; which < count; which++)
        kind->state(n, cells + which * n * n);
}
