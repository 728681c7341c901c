/* refine.c: chachaqom_refine compared on matrices of every style, and on sizes and lengths. */
#include "compare.h"

static struct lent lent_cells, lent_first, lent_second, lent_answer;

static uint32_t made_by(matrix_call *call, int program, size_t n)
{
    return call(n, lent_to(&lent_cells, program), lent_cells.length,
                lent_to(&lent_first, program), lent_first.length,
                lent_to(&lent_second, program), lent_second.length,
                lent_to(&lent_answer, program), lent_answer.length);
}

static void count_rounds(struct call *call)
{
    uint64_t rounds;

    if (lent_answer.length != CHACHAQOM_ANSWER_LENGTH)
        return;
    rounds = answered(&lent_answer, CHACHAQOM_ANSWER_COUNT);
    if (rounds > call->count)
        call->count = rounds;
}

/* How long the cells, both work areas and the answer are, for n regions. */
static void choose_lengths(size_t n, size_t *lengths)
{
    lengths[0] = n * n;
    lengths[1] = n * n + (once_in(2) ? below(40) : 0);
    lengths[2] = n * n + (once_in(2) ? below(40) : 0);
    lengths[3] = CHACHAQOM_ANSWER_LENGTH;
}

int compare_on_matrix(struct call *call, matrix_call *library, matrix_call *second_program)
{
    static uint8_t cells[ROOM];
    size_t n = random_size(), size = n, lengths[4];
    uint32_t number, other;

    memset(cells, CHACHAQOM_UNIVERSAL, sizeof cells);
    state_any_style(cells, n);
    choose_lengths(n, lengths);
    if (once_in(12))
        size = once_in(8) ? CHACHAQOM_REGIONS_LIMIT + 1 : hostile_size(n);
    if (size == CHACHAQOM_REGIONS_LIMIT + 1 && once_in(2))
        lengths[0] = lengths[1] = lengths[2] = size * size;
    if (once_in(12)) {
        size_t which = below(4);

        lengths[which] = hostile_length(which < 3 ? n * n : lengths[which]);
    }
    lend_input(&lent_cells, "cells", cells, lengths[0]);
    lend(&lent_first, "first", lengths[1]);
    lend(&lent_second, "second", lengths[2]);
    lend(&lent_answer, "answer", lengths[3]);
    number = made_by(library, LIBRARY, size);
    other = made_by(second_program, SECOND_PROGRAM, size);
    if (!(returned_alike(call, number, other)
          && area_alike(&lent_answer) && area_alike(&lent_first) && area_alike(&lent_second)
          && input_alike(&lent_cells)))
        return 0;
    count_rounds(call);
    return 1;
}

static int compare_refined(void)
{
    return compare_on_matrix(&refine_call, chachaqom_refine, second_refine);
}

struct call refine_call = {
    .name = "refine",
    .compare = compare_refined,
    .answerable = { 0, 1, 2, 21, 22, 23, -1 },
    .counted = "rounds at most"
};
