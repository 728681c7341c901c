/*
 * run.c: the second program's rounds a few at a time. It keeps the networks of the last two rounds
 * beside the areas, and lays them out when it is known how the call ends.
 */
#include "inside.h"

/* A run that goes on: how many rounds were made, and the networks after them and before the last. */
struct going {
    size_t made;
    struct matrix now, before;
};

static int is_unprepared_cell(const struct matrix *m, size_t i, size_t j)
{
    uint8_t set = m->cell[i][j];

    if (set == 0 && !planted(SECOND_FAULT_EMPTY_SET_UNTESTED))
        return 1;
    if (i == j)
        return set != EQUAL && !planted(SECOND_FAULT_DIAGONAL_UNTESTED);
    return set != converse(m->cell[j][i]) && !planted(SECOND_FAULT_CONVERSE_UNTESTED);
}

/* The refusal of a network that no round can start from; or none. */
static struct outcome judge_network(const struct matrix *m)
{
    size_t i, j;

    for (i = 0; i < m->n; i++)
        for (j = 0; j < m->n; j++)
            if (is_unprepared_cell(m, i, j)) {
                int named = planted(SECOND_FAULT_UNPREPARED_NAMES_THE_CELL);

                return refused(25, named ? i : 0, named ? j : 0, 0, 0);
            }
    return accepted(0);
}

/* 1 and 2 in turn, the area given after an even number of rounds. */
static size_t area_after(size_t area, size_t made)
{
    if (planted(SECOND_FAULT_WRONG_AREA_AFTER_AN_ODD_NUMBER))
        return area;
    return made % 2 == 0 ? area : 3 - area;
}

static struct outcome used_up(size_t area, size_t made)
{
    size_t count = made;

    if (planted(SECOND_FAULT_USED_UP_COUNT_ONE_OFF))
        count = made + 1;
    if (planted(SECOND_FAULT_UNFINISHED_COUNT_FROM_NONE))
        count = 0;
    return refused(24, area_after(area, made), 0, 0, count);
}

/* No round is made: only what the checks say, unless a fault looks further. */
static struct outcome no_rounds(const struct going *g, size_t area)
{
    struct matrix next;

    if (planted(SECOND_FAULT_NO_ROUND_ACCEPTED) && make_round(&g->now, &next, 1).number == 0
        && same(&g->now, &next))
        return accepted(0);
    return used_up(area, 0);
}

static struct outcome go(struct going *g, size_t area, size_t rounds)
{
    if (rounds == 0)
        return no_rounds(g, area);
    for (;;) {
        struct matrix next;
        struct outcome outcome;

        if (g->made == rounds && !planted(SECOND_FAULT_CONFIRMING_ROUND_FREE))
            return used_up(area, g->made);
        outcome = make_round(&g->now, &next, g->made + 1);
        if (outcome.number != 0)
            return outcome;
        if (same(&g->now, &next))
            return refused(0, planted(SECOND_FAULT_AREA_NAMED_WITH_ACCEPTANCE) ? area : 0, 0, 0,
                           g->made);
        if (g->made == rounds)
            return used_up(area, g->made);
        g->before = g->now;
        g->now = next;
        g->made++;
    }
}

/* The area that holds the network first, then the other one. */
static void leave_unfinished(const struct going *g, uint8_t *holder, uint8_t *other)
{
    lay_matrix(&g->now, holder);
    if (g->made > 0)
        lay_matrix(planted(SECOND_FAULT_ROUND_BEFORE_LOST) ? &g->now : &g->before, other);
    if (planted(SECOND_FAULT_UNFINISHED_AREAS_CLEARED))
        memset(other, 0, g->now.n * g->now.n);
}

static void leave_run(const struct going *g, uint32_t number, uint8_t *from, uint8_t *other)
{
    size_t cells = g->now.n * g->now.n;

    if (number == 23 || (number == 25 && planted(SECOND_FAULT_AREAS_CLEARED_BY_25))) {
        memset(from, 0, cells);
        memset(other, 0, cells);
    }
    if (number == 0) {
        lay_matrix(&g->now, from);
        if (!planted(SECOND_FAULT_ACCEPTED_IN_ONE_AREA))
            lay_matrix(&g->now, other);
    }
    if (number == 24 && g->made % 2 == 0)
        leave_unfinished(g, from, other);
    if (number == 24 && g->made % 2 == 1)
        leave_unfinished(g, other, from);
    if (number == 25 && planted(SECOND_FAULT_OTHER_AREA_OVERWRITTEN_BY_25))
        lay_matrix(&g->now, other);
}

static struct outcome run_given(size_t n, size_t area, size_t rounds, uint8_t *first, uint8_t *second)
{
    int from_first = area == 1 || planted(SECOND_FAULT_ALWAYS_THE_FIRST_AREA);
    struct going g;
    struct outcome outcome = accepted(0);

    take_matrix(&g.now, n, from_first ? first : second);
    g.made = 0;
    if (rounds > 0 || !planted(SECOND_FAULT_NO_ROUND_NO_CHECK))
        outcome = judge_network(&g.now);
    if (outcome.number == 0)
        outcome = go(&g, area, rounds);
    leave_run(&g, outcome.number, area == 1 ? first : second, area == 1 ? second : first);
    return outcome;
}

static int running_lengths_wrong(size_t n, size_t first, size_t second)
{
    return first < n * n || second < n * n;
}

/* The number of an area, by the faults: 1 or 2, or another number that is none. */
static size_t area_meant(size_t area)
{
    if (planted(SECOND_FAULT_AREA_TAKEN_AS_A_BYTE))
        return area % 256;
    return area == 0 && planted(SECOND_FAULT_AREA_ZERO_IS_THE_FIRST) ? 1 : area;
}

uint32_t second_run(size_t n, size_t area, size_t rounds,
                    uint8_t *first, size_t first_length,
                    uint8_t *second, size_t second_length,
                    uint8_t *answer, size_t answer_length)
{
    uint32_t number;

    if (answer_length != 20)
        return 2;
    area = area_meant(area);
    if (planted(SECOND_FAULT_ROUNDS_TAKEN_AS_32_BITS))
        rounds = (uint32_t)rounds;
    if (out_of_range(n))
        return put_answer(answer, refused(1, 0, 0, 0, 0));
    if (planted(SECOND_FAULT_LENGTH_BEFORE_AREA)
        && running_lengths_wrong(n, first_length, second_length))
        return put_answer(answer, refused(2, 0, 0, 0, 0));
    if (area != 1 && area != 2)
        return put_answer(answer, refused(1, 0, 0, 0, 0));
    if (running_lengths_wrong(n, first_length, second_length))
        return put_answer(answer, refused(2, 0, 0, 0, 0));
    number = put_answer(answer, run_given(n, area, rounds, first, second));
    if (number == 23 && planted(SECOND_FAULT_RUN_TAIL_BYTE_CLEARED) && first_length > n * n)
        first[n * n] = 0;
    return number;
}
