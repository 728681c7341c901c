/* refine.c: the second program's refinement, rule by rule and round by round. */
#include "inside.h"

void take_matrix(struct matrix *m, size_t n, const uint8_t *cells)
{
    size_t i, j;

    m->n = n;
    for (i = 0; i < n; i++)
        for (j = 0; j < n; j++)
            m->cell[i][j] = cells[i * n + j];
}

void lay_matrix(const struct matrix *m, uint8_t *area)
{
    size_t i, j;

    for (i = 0; i < m->n; i++)
        for (j = 0; j < m->n; j++)
            area[i * m->n + j] = m->cell[i][j];
}

static struct outcome node_rule(struct matrix *m)
{
    size_t i, j;

    for (i = 0; i < m->n; i++)
        for (j = 0; j < m->n; j++) {
            if (i == j)
                m->cell[i][i] &= EQUAL;
            if (planted(SECOND_FAULT_ARC_BEFORE_NODE) && m->cell[i][j] == 0 && i != j)
                return refused(22, i, j, 0, 0);
            if (i == j && m->cell[i][i] == 0)
                return refused(21, i, 0, 0, 0);
        }
    return accepted(0);
}

static struct outcome arc_rule(struct matrix *m)
{
    struct matrix old = *m;
    size_t i, j;

    for (i = 0; i < m->n; i++)
        for (j = 0; j < m->n; j++) {
            uint8_t opposite = old.cell[j][i];

            if (!planted(SECOND_FAULT_INTERSECTING_UNCONVERTED))
                opposite = converse(opposite);
            m->cell[i][j] &= opposite;
            if (m->cell[i][j] == 0)
                return refused(22, i, j, 0, 0);
        }
    return accepted(0);
}

struct outcome make_ready(struct matrix *m)
{
    struct outcome outcome = node_rule(m);

    return outcome.number == 0 ? arc_rule(m) : outcome;
}

static void compose_all(const struct matrix *old, struct matrix *next)
{
    const struct matrix *from = planted(SECOND_FAULT_UPDATING_WITHIN_A_ROUND) ? next : old;
    size_t i, j, k;

    *next = *old;
    for (i = 0; i < old->n; i++)
        for (j = 0; j < old->n; j++) {
            uint8_t set = UNIVERSAL;

            for (k = 0; k < old->n; k++)
                set &= compose(from->cell[i][k], from->cell[k][j]);
            next->cell[i][j] = set;
        }
}

/* The refusal at the empty cell (i, j) of the given round. */
static struct outcome path_refusal(const struct matrix *old, size_t i, size_t j, size_t round)
{
    uint8_t set = planted(SECOND_FAULT_RUNNING_SET_FROM_UNIVERSAL) ? UNIVERSAL : old->cell[i][j];
    size_t k;

    for (k = 0; k < old->n; k++) {
        set &= compose(old->cell[i][k], old->cell[k][j]);
        if (set == 0)
            break;
    }
    if (planted(SECOND_FAULT_TRIPLE_IN_THE_AUTHORS_ORDER))
        return refused(23, i, j, k, round);
    return refused(23, i, k, j, round);
}

struct outcome make_round(const struct matrix *old, struct matrix *next, size_t round)
{
    size_t i, j;

    compose_all(old, next);
    for (i = 0; i < next->n; i++)
        for (j = 0; j < next->n; j++)
            if (next->cell[i][j] == 0)
                return path_refusal(old, i, j, round);
    return accepted(0);
}

int same(const struct matrix *a, const struct matrix *b)
{
    size_t i, j;

    for (i = 0; i < a->n; i++)
        for (j = 0; j < a->n; j++)
            if (a->cell[i][j] != b->cell[i][j])
                return 0;
    return 1;
}

static struct outcome rounds(struct matrix *m)
{
    size_t round;

    for (round = 1;; round++) {
        struct matrix old = *m;
        struct outcome outcome = make_round(&old, m, round);

        if (outcome.number != 0)
            return outcome;
        if (same(&old, m))
            return accepted(round - !planted(SECOND_FAULT_COUNTING_THE_CONFIRMING_ROUND));
        if (planted(SECOND_FAULT_STOPPING_AFTER_ROUND_ONE))
            return accepted(round);
    }
}

static struct outcome refine_matrix(struct matrix *m)
{
    struct outcome outcome = make_ready(m);

    return outcome.number == 0 ? rounds(m) : outcome;
}

static int matrix_lengths_wrong(size_t n, size_t cells, size_t first, size_t second)
{
    if (planted(SECOND_FAULT_WORK_AREA_OF_EXACT_LENGTH) && (first != n * n || second != n * n))
        return 1;
    return cells != n * n || first < n * n || second < n * n;
}

/* Lays the network, or zeroes after a refusal, into both areas. */
static void leave(const struct matrix *m, uint32_t number,
                  uint8_t *first, size_t first_length, uint8_t *second)
{
    size_t n = m->n, i, j;

    for (i = 0; i < n; i++)
        for (j = 0; j < n; j++) {
            uint8_t set = number == 0 ? m->cell[i][j] : 0;

            first[i * n + j] = set;
            if (number != 0 && planted(SECOND_FAULT_WORK_AREA_UNCLEARED))
                continue;
            second[i * n + j] = set;
        }
    if (number != 0 && planted(SECOND_FAULT_TAIL_BYTE_CLEARED) && first_length > n * n)
        first[n * n] = 0;
}

uint32_t second_refine(size_t n, const uint8_t *cells, size_t cells_length,
                       uint8_t *first, size_t first_length,
                       uint8_t *second, size_t second_length,
                       uint8_t *answer, size_t answer_length)
{
    struct matrix m;
    struct outcome outcome;

    if (answer_length != 20)
        return 2;
    if (planted(SECOND_FAULT_REGIONS_TAKEN_AS_A_BYTE))
        n = n % 256;
    if (planted(SECOND_FAULT_LENGTH_BEFORE_RANGE)
        && matrix_lengths_wrong(n, cells_length, first_length, second_length))
        return put_answer(answer, refused(2, 0, 0, 0, 0));
    if (out_of_range(n))
        return put_answer(answer, refused(1, 0, 0, 0, 0));
    if (matrix_lengths_wrong(n, cells_length, first_length, second_length))
        return put_answer(answer, refused(2, 0, 0, 0, 0));
    take_matrix(&m, n, cells);
    outcome = refine_matrix(&m);
    leave(&m, outcome.number, first, first_length, second);
    return put_answer(answer, outcome);
}
