/* refine.c: checks of chachaqom_refine: the twelve cases, sizes, chains, order, lengths. */
#include "matrices.h"

static struct guarded cells_area, first_area, second_area;

static void expect_work_areas(struct outcome outcome, const uint8_t *network, size_t length)
{
    if (outcome.number == CHACHAQOM_ACCEPTED) {
        expect_bytes(&first_area, network, length);
        expect_bytes(&second_area, network, length);
    } else if (outcome.number >= CHACHAQOM_NODE) {
        expect_zero(&first_area, length);
        expect_zero(&second_area, length);
    }
}

static void refine_at(int position, size_t n, const uint8_t *cells, struct lengths lengths,
                      struct outcome outcome, const uint8_t *network)
{
    const uint8_t *input = lend_input(&cells_area, cells, lengths.cells, position);
    uint8_t *first = lend(&first_area, lengths.first, position);
    uint8_t *second = lend(&second_area, lengths.second, position);
    uint8_t *answer = lend_answer(lengths.answer, position);
    uint32_t returned = chachaqom_refine(n, input, lengths.cells, first, lengths.first,
                                         second, lengths.second, answer, lengths.answer);

    expect_work_areas(outcome, network, lengths.cells);
    check_answer(returned, outcome);
    check_area(&first_area, "first work area, or the bytes around it");
    check_area(&second_area, "second work area, or the bytes around it");
    check_area(&cells_area, "cells changed");
}

static void refine(size_t n, const uint8_t *cells, struct lengths lengths,
                   struct outcome outcome, const uint8_t *network)
{
    int position;

    for (position = 0; position < POSITIONS; position++)
        refine_at(position, n, cells, lengths, outcome, network);
}

/* The same with longer work areas, whose tails must stay. */
static void refine_with_tails(size_t n, const uint8_t *cells, struct outcome outcome,
                              const uint8_t *network)
{
    size_t length = n * n;

    refine(n, cells, exact(n), outcome, network);
    refine(n, cells, lengths_of(length, length + 1, length + 7, CHACHAQOM_ANSWER_LENGTH), outcome,
           network);
    refine(n, cells, lengths_of(length, length + 100, length, CHACHAQOM_ANSWER_LENGTH), outcome,
           network);
}

/* ---- the cases of the rules ---- */

static void run_matrix_cases(const struct matrix_case *cases, size_t count)
{
    uint8_t cells[16];
    size_t i;

    for (i = 0; i < count; i++) {
        const struct matrix_case *c = &cases[i];

        checking = c->name;
        state(cells, c->n, c->stated);
        refine_with_tails(c->n, cells,
                          outcome_of(c->number, c->places[0], c->places[1], c->places[2], c->count),
                          c->network);
    }
}

/* Case 12, and sizes that would pass for others if they were narrowed or multiplied too early. */
static void run_sizes_out_of_range(void)
{
    static const size_t sizes[] = {
        0, 65, 66, 255, 256, 257, 320, (size_t)1 << 32, ((size_t)1 << 32) + 3,
        (size_t)1 << 63, SIZE_MAX, SIZE_MAX - 1
    };
    static uint8_t cells[66 * 66];
    struct outcome refused = outcome_of(CHACHAQOM_OUT_OF_RANGE, 0, 0, 0, 0);
    size_t i;

    memset(cells, CHACHAQOM_UNIVERSAL, sizeof cells);
    checking = "case 12: a size out of range";
    for (i = 0; i < COUNT_OF(sizes); i++) {
        refine(sizes[i], cells, exact(0), refused, NULL);
        refine(sizes[i], cells, exact(1), refused, NULL);
        refine(sizes[i], cells, exact(3), refused, NULL);
        refine(sizes[i], cells, exact(CHACHAQOM_REGIONS_LIMIT), refused, NULL);
        refine(sizes[i], cells, exact(65), refused, NULL);
        refine(sizes[i], cells, lengths_of(9, 8, 7, CHACHAQOM_ANSWER_LENGTH), refused, NULL);
    }
}

static void run_largest_matrix(void)
{
    static uint8_t cells[CHACHAQOM_CELLS_LENGTH + 1], network[CHACHAQOM_CELLS_LENGTH];
    const size_t n = CHACHAQOM_REGIONS_LIMIT, all = CHACHAQOM_CELLS_LENGTH;
    struct outcome wrong = outcome_of(CHACHAQOM_WRONG_LENGTH, 0, 0, 0, 0);
    size_t i;

    memset(cells, CHACHAQOM_UNIVERSAL, sizeof cells);
    memset(network, CHACHAQOM_UNIVERSAL, sizeof network);
    for (i = 0; i < n; i++)
        network[i * n + i] = CHACHAQOM_EQUAL;
    checking = "64 regions, 4,096 cells";
    refine_with_tails(n, cells, outcome_of(CHACHAQOM_ACCEPTED, 0, 0, 0, 0), network);
    checking = "64 regions, 4,095 and 4,097 cells";
    refine(n, cells, lengths_of(all - 1, all, all, CHACHAQOM_ANSWER_LENGTH), wrong, NULL);
    refine(n, cells, lengths_of(all + 1, all, all, CHACHAQOM_ANSWER_LENGTH), wrong, NULL);
}

/*
 * 64 regions in a chain: six rounds, and all pairs are known. With the last inside the first, round 5
 * has 0 inside 32 by way of 16 and containing it by way of 48.
 */
static void run_longest_chain(void)
{
    static uint8_t cells[CHACHAQOM_CELLS_LENGTH], network[CHACHAQOM_CELLS_LENGTH];
    const size_t n = CHACHAQOM_REGIONS_LIMIT;

    state_chain(cells, network, n);
    checking = "64 regions in a chain";
    refine_with_tails(n, cells, outcome_of(CHACHAQOM_ACCEPTED, 0, 0, 0, 6), network);
    checking = "64 regions in a chain that closes";
    cells[(n - 1) * n] = CHACHAQOM_INSIDE;
    refine_with_tails(n, cells, outcome_of(CHACHAQOM_PATH, 0, 48, 32, 5), NULL);
}

/* Node refusals before all arc refusals, and the least of each kind. */
static void run_order_of_rules(void)
{
    static const uint8_t arc_and_node[9] = { 255, 0, 255, 255, 255, 255, 255, 255, 251 };
    static const uint8_t two_nodes[9] = { 255, 255, 255, 255, 3, 255, 255, 255, 0 };
    static const uint8_t two_arcs[9] = { 255, 255, 8, 255, 255, 0, 8, 255, 255 };

    checking = "an empty cell before a diagonal without equal";
    refine_with_tails(3, arc_and_node, outcome_of(CHACHAQOM_NODE, 2, 0, 0, 0), NULL);
    checking = "two diagonals without equal";
    refine_with_tails(3, two_nodes, outcome_of(CHACHAQOM_NODE, 1, 0, 0, 0), NULL);
    checking = "two pairs that contradict themselves";
    refine_with_tails(3, two_arcs, outcome_of(CHACHAQOM_ARC, 0, 2, 0, 0), NULL);
}

static void run_matrix_lengths(void)
{
    static const uint8_t chain[10] = { 255, 8, 255, 255, 255, 8, 255, 255, 255, 255 };
    struct outcome wrong = outcome_of(CHACHAQOM_WRONG_LENGTH, 0, 0, 0, 0);
    const size_t answer = CHACHAQOM_ANSWER_LENGTH;

    checking = "matrix: a length off by one";
    refine(3, chain, lengths_of(8, 9, 9, answer), wrong, NULL);
    refine(3, chain, lengths_of(10, 9, 9, answer), wrong, NULL);
    refine(3, chain, lengths_of(9, 8, 9, answer), wrong, NULL);
    refine(3, chain, lengths_of(9, 9, 8, answer), wrong, NULL);
    refine(3, chain, lengths_of(9, 9, 9, answer - 1), wrong, NULL);
    refine(3, chain, lengths_of(9, 9, 9, answer + 1), wrong, NULL);
    checking = "matrix: an answer of another length comes first";
    refine(0, chain, lengths_of(9, 9, 9, answer - 1), wrong, NULL);
    refine(65, chain, lengths_of(9, 8, 7, answer + 1), wrong, NULL);
    checking = "matrix: empty arrays, null ones too";
    refine(1, chain, lengths_of(0, 1, 1, answer), wrong, NULL);
    refine(1, chain, lengths_of(1, 0, 1, answer), wrong, NULL);
    refine(1, chain, lengths_of(1, 1, 0, answer), wrong, NULL);
    refine(1, chain, lengths_of(1, 1, 1, 0), wrong, NULL);
    refine(1, chain, lengths_of(0, 0, 0, answer), wrong, NULL);
    refine(0, chain, lengths_of(0, 0, 0, 0), wrong, NULL);
    refine(0, chain, lengths_of(0, 0, 0, answer), outcome_of(CHACHAQOM_OUT_OF_RANGE, 0, 0, 0, 0), NULL);
}

void check_refine(void)
{
    run_matrix_cases(twelve_cases, twelve_case_count);
    run_sizes_out_of_range();
    end_group("the twelve cases");
    run_largest_matrix();
    run_matrix_cases(program_cases, program_case_count);
    end_group("cases run by a program");
    run_longest_chain();
    run_order_of_rules();
    end_group("chains and the order of the rules");
    run_matrix_lengths();
    end_group("lengths of a matrix's arrays");
}
