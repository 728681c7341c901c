/*
 * queue.c: path consistency with a queue, to be measured beside the library: a table of all
 * compositions of two sets, and a queue of the pairs whose set has changed. NAME and FLAGS come from
 * build.sh.
 */
#include "refiners.h"

#include "relations.h"

#include <string.h>

enum { SETS = 256, PAIRS = CHACHAQOM_CELLS_LENGTH };

static uint8_t compositions[SETS][SETS], converses[SETS];

/* Each entry from one with a relation less on either side. */
static void make_table(void)
{
    unsigned a, b, p, q;

    for (a = 1; a < SETS; a++) {
        converses[a] = converse((uint8_t)a);
        for (p = 0; !(a >> p & 1); p++)
            ;
        for (b = 1; b < SETS; b++) {
            for (q = 0; !(b >> q & 1); q++)
                ;
            compositions[a][b] = compositions_of_relations[p][q] | compositions[a & (a - 1)][b]
                                 | compositions[1u << p][b & (b - 1)];
        }
    }
}

/* The pairs that wait, each at most once; `waiting` is cleared for as many pairs as there are. */
struct queue {
    uint16_t pairs[PAIRS];
    uint8_t waiting[PAIRS];
    size_t first, count;
};

static void push(struct queue *queue, size_t pair)
{
    if (queue->waiting[pair])
        return;
    queue->waiting[pair] = 1;
    queue->pairs[(queue->first + queue->count++) % PAIRS] = (uint16_t)pair;
}

static size_t pop(struct queue *queue)
{
    size_t pair = queue->pairs[queue->first];

    queue->first = (queue->first + 1) % PAIRS;
    queue->count--;
    queue->waiting[pair] = 0;
    return pair;
}

/* Narrows (i, j) and its opposite to a set; returns whether something is left. */
static int narrow(struct queue *queue, size_t n, uint8_t *network, size_t i, size_t j, uint8_t set)
{
    uint8_t narrowed = network[i * n + j] & set;

    if (narrowed == network[i * n + j])
        return 1;
    network[i * n + j] = narrowed;
    network[j * n + i] = converses[narrowed];
    push(queue, i < j ? i * n + j : j * n + i);
    return narrowed != CHACHAQOM_EMPTY;
}

static int prepare(struct queue *queue, size_t n, const uint8_t *cells, uint8_t *network)
{
    size_t i, j;

    memcpy(network, cells, n * n);
    for (i = 0; i < n; i++) {
        network[i * n + i] &= CHACHAQOM_EQUAL;
        if (network[i * n + i] == CHACHAQOM_EMPTY)
            return 0;
        for (j = 0; j < i; j++) {
            network[i * n + j] &= converses[network[j * n + i]];
            network[j * n + i] = converses[network[i * n + j]];
            if (network[i * n + j] == CHACHAQOM_EMPTY)
                return 0;
            if (network[i * n + j] != CHACHAQOM_UNIVERSAL)
                push(queue, j * n + i);
        }
    }
    return 1;
}

/* The contradictions are not told apart, no rounds are counted, and the second area is not used. */
static uint32_t refine(size_t n, const uint8_t *cells, uint8_t *network, uint8_t *second,
                       uint32_t *rounds)
{
    static struct queue queue;
    size_t k;

    (void)second;
    *rounds = 0;
    queue.first = queue.count = 0;
    memset(queue.waiting, 0, n * n);
    if (!prepare(&queue, n, cells, network))
        return CHACHAQOM_PATH;
    while (queue.count > 0) {
        size_t pair = pop(&queue), i = pair / n, j = pair % n;

        for (k = 0; k < n; k++) {
            if (k == i || k == j)
                continue;
            if (!narrow(&queue, n, network, i, k,
                        compositions[network[i * n + j]][network[j * n + k]])
                || !narrow(&queue, n, network, k, j,
                           compositions[network[k * n + i]][network[i * n + j]]))
                return CHACHAQOM_PATH;
        }
    }
    return CHACHAQOM_ACCEPTED;
}

const struct refiner NAME = { "queue C", COMPILER, FLAGS, 0, make_table, refine };
