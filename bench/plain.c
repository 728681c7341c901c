/*
 * plain.c: the plain refinement in C, to be measured beside the library: every round composes all
 * pairs of cells through the table of 64 compositions. NAME and FLAGS come from build.sh.
 */
#include "refiners.h"

#include "relations.h"

#include <string.h>

static uint8_t compose(uint8_t a, uint8_t b)
{
    uint8_t result = 0;
    int p, q;

    for (p = 0; p < RELATIONS; p++) {
        if (!(a >> p & 1))
            continue;
        for (q = 0; q < RELATIONS; q++)
            if (b >> q & 1)
                result |= compositions_of_relations[p][q];
    }
    return result;
}

/* The node and arc rules; 0, or the number of the contradiction. */
static uint32_t prepare(size_t n, const uint8_t *cells, uint8_t *area)
{
    size_t i, j;

    memcpy(area, cells, n * n);
    for (i = 0; i < n; i++) {
        area[i * n + i] &= CHACHAQOM_EQUAL;
        if (area[i * n + i] == CHACHAQOM_EMPTY)
            return CHACHAQOM_NODE;
    }
    for (i = 0; i < n; i++)
        for (j = i + 1; j < n; j++) {
            area[i * n + j] &= converse(area[j * n + i]);
            area[j * n + i] = converse(area[i * n + j]);
            if (area[i * n + j] == CHACHAQOM_EMPTY)
                return CHACHAQOM_ARC;
        }
    return CHACHAQOM_ACCEPTED;
}

/* One round from old to next; returns whether a cell ran empty. */
static int make_round(size_t n, const uint8_t *old, uint8_t *next)
{
    int empty = 0;
    size_t i, j, k;

    for (i = 0; i < n; i++)
        for (j = 0; j < n; j++) {
            uint8_t set = CHACHAQOM_UNIVERSAL;

            for (k = 0; k < n; k++)
                set &= compose(old[i * n + k], old[k * n + j]);
            next[i * n + j] = set;
            empty |= set == CHACHAQOM_EMPTY;
        }
    return empty;
}

static uint32_t refine(size_t n, const uint8_t *cells, uint8_t *first, uint8_t *second,
                       uint32_t *rounds)
{
    uint8_t *old = first, *next = second;
    uint32_t number = prepare(n, cells, first);

    *rounds = 0;
    if (number != CHACHAQOM_ACCEPTED)
        return number;
    for (;;) {
        uint8_t *swap = old;

        if (make_round(n, old, next)) {
            ++*rounds;
            return CHACHAQOM_PATH;
        }
        if (memcmp(old, next, n * n) == 0)
            return CHACHAQOM_ACCEPTED;
        ++*rounds;
        old = next;
        next = swap;
    }
}

const struct refiner NAME = { "plain C", COMPILER, FLAGS, 1, NULL, refine };
