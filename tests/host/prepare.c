/* prepare.c: checks of chachaqom_prepare: what it leaves in each area, its refusals, lengths. */
#include "matrices.h"

static struct guarded cells_area, first_area, second_area;

/* What the first area holds in front afterwards; the second is written by a refusal alone. */
static void expect_work_areas(struct outcome outcome, const uint8_t *prepared, size_t length)
{
    if (outcome.number == CHACHAQOM_ACCEPTED)
        expect_bytes(&first_area, prepared, length);
    if (outcome.number >= CHACHAQOM_NODE) {
        expect_zero(&first_area, length);
        expect_zero(&second_area, length);
    }
}

static void prepare_at(int position, size_t n, const uint8_t *cells, struct lengths lengths,
                       struct outcome outcome, const uint8_t *prepared)
{
    const uint8_t *input = lend_input(&cells_area, cells, lengths.cells, position);
    uint8_t *first = lend(&first_area, lengths.first, position);
    uint8_t *second = lend(&second_area, lengths.second, position);
    uint8_t *answer = lend_answer(lengths.answer, position);
    uint32_t returned = chachaqom_prepare(n, input, lengths.cells, first, lengths.first,
                                          second, lengths.second, answer, lengths.answer);

    expect_work_areas(outcome, prepared, lengths.cells);
    check_answer(returned, outcome);
    check_area(&first_area, "first work area, or the bytes around it");
    check_area(&second_area, "second work area, or the bytes around it");
    check_area(&cells_area, "cells changed");
}

static void prepare(size_t n, const uint8_t *cells, struct lengths lengths,
                    struct outcome outcome, const uint8_t *prepared)
{
    int position;

    for (position = 0; position < POSITIONS; position++)
        prepare_at(position, n, cells, lengths, outcome, prepared);
}

struct prepared_case {
    const char *name;
    size_t n;
    struct entry stated[6]; /* cells not given are 255 */
    uint32_t number, places[2];
    uint8_t prepared[16]; /* on acceptance */
};

/* Cases of the rules, by their numbers: what the node and the arc rule make of them. */
static const struct prepared_case prepared_cases[] = {
    { "case 1, prepared", 1, { { 0, 0, 255 } }, 0, { 0, 0 }, { 4 } },
    { "case 2, prepared", 1, { { 0, 0, 251 } }, 21, { 0, 0 }, { 0 } },
    { "case 3, prepared", 2, { { 0, 1, 8 } }, 0, { 0, 0 }, { 4, 8, 32, 4 } },
    { "case 4, prepared", 2, { { 0, 1, 8 }, { 1, 0, 8 } }, 22, { 0, 1 }, { 0 } },
    { "case 5, prepared", 2, { { 0, 1, 24 }, { 1, 0, 33 } }, 0, { 0, 0 }, { 4, 8, 32, 4 } },
    { "case 6, prepared", 3, { { 0, 1, 8 }, { 1, 2, 8 } }, 0, { 0, 0 },
      { 4, 8, 255, 32, 4, 8, 255, 32, 4 } },
    { "case 7, prepared: no triple is looked at", 3, { { 0, 1, 32 }, { 1, 2, 32 }, { 0, 2, 2 } },
      0, { 0, 0 }, { 4, 32, 2, 8, 4, 32, 2, 8, 4 } },
    { "case 8, prepared", 4, { { 0, 1, 8 }, { 1, 2, 8 }, { 2, 3, 8 } }, 0, { 0, 0 },
      { 4, 8, 255, 255, 32, 4, 8, 255, 255, 32, 4, 8, 255, 255, 32, 4 } },
    { "case 11, prepared", 3, { { 0, 1, 255 } }, 0, { 0, 0 },
      { 4, 255, 255, 255, 4, 255, 255, 255, 4 } },
    { "a node refusal before an arc refusal", 3, { { 0, 1, 8 }, { 1, 0, 8 }, { 2, 2, 251 } },
      21, { 2, 0 }, { 0 } },
    { "the first of two arc refusals", 3, { { 0, 2, 8 }, { 2, 0, 8 }, { 1, 2, 1 }, { 2, 1, 2 } },
      22, { 0, 2 }, { 0 } },
};

static void run_prepared_cases(void)
{
    uint8_t cells[16];
    size_t i;

    for (i = 0; i < COUNT_OF(prepared_cases); i++) {
        const struct prepared_case *c = &prepared_cases[i];
        size_t length = c->n * c->n;
        struct outcome outcome = outcome_of(c->number, c->places[0], c->places[1], 0, 0);

        checking = c->name;
        state(cells, c->n, c->stated);
        prepare(c->n, cells, exact(c->n), outcome, c->prepared);
        prepare(c->n, cells, lengths_of(length, length + 1, length + 7, CHACHAQOM_ANSWER_LENGTH),
                outcome, c->prepared);
        prepare(c->n, cells, lengths_of(length, length + 100, length, CHACHAQOM_ANSWER_LENGTH),
                outcome, c->prepared);
    }
}

static void run_preparing_sizes(void)
{
    static const size_t sizes[] = { 0, 65, 256, 257, 320, (size_t)1 << 32, ((size_t)1 << 32) + 3,
                                    (size_t)1 << 63, SIZE_MAX };
    static uint8_t cells[65 * 65];
    struct outcome refused = outcome_of(CHACHAQOM_OUT_OF_RANGE, 0, 0, 0, 0);
    size_t i;

    checking = "preparing: a size out of range";
    for (i = 0; i < COUNT_OF(sizes); i++) {
        prepare(sizes[i], cells, exact(0), refused, NULL);
        prepare(sizes[i], cells, exact(3), refused, NULL);
        prepare(sizes[i], cells, exact(65), refused, NULL);
        prepare(sizes[i], cells, lengths_of(9, 8, 7, CHACHAQOM_ANSWER_LENGTH), refused, NULL);
    }
}

static void run_preparing_lengths(void)
{
    static const uint8_t chain[10] = { 255, 8, 255, 255, 255, 8, 255, 255, 255, 255 };
    const size_t answer = CHACHAQOM_ANSWER_LENGTH;
    const struct lengths wrong[] = {
        lengths_of(8, 9, 9, answer), lengths_of(10, 9, 9, answer), lengths_of(9, 8, 9, answer),
        lengths_of(9, 9, 8, answer), lengths_of(0, 9, 9, answer), lengths_of(9, 0, 9, answer),
        lengths_of(9, 9, 0, answer), lengths_of(0, 0, 0, answer), lengths_of(9, 9, 9, answer - 1),
        lengths_of(9, 9, 9, answer + 1), lengths_of(9, 9, 9, 0), lengths_of(0, 0, 0, 0)
    };
    struct outcome refused = outcome_of(CHACHAQOM_WRONG_LENGTH, 0, 0, 0, 0);
    size_t i;

    checking = "preparing: a length off by one, or 0";
    for (i = 0; i < COUNT_OF(wrong); i++)
        prepare(3, chain, wrong[i], refused, NULL);
    checking = "preparing: an answer of another length comes first";
    prepare(0, chain, lengths_of(9, 9, 9, answer - 1), refused, NULL);
    prepare(65, chain, lengths_of(9, 8, 7, answer + 1), refused, NULL);
}

void check_prepare(void)
{
    run_prepared_cases();
    end_group("prepared matrices");
    run_preparing_sizes();
    run_preparing_lengths();
    end_group("sizes and lengths of preparing's arrays");
}
