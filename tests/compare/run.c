/*
 * run.c: chachaqom_run compared on networks that were prepared, refined, damaged or never were one,
 * from either area; and refinements shared out over calls at random, against the whole.
 */
#include "compare.h"

static struct lent lent_first, lent_second, lent_answer;

static uint32_t run_by(int program, size_t n, size_t area, size_t rounds)
{
    return (program == LIBRARY ? chachaqom_run : second_run)(
        n, area, rounds,
        lent_to(&lent_first, program), lent_first.length,
        lent_to(&lent_second, program), lent_second.length,
        lent_to(&lent_answer, program), lent_answer.length);
}

static int compare_lent(size_t n, size_t area, size_t rounds)
{
    uint32_t library = run_by(LIBRARY, n, area, rounds);
    uint32_t other = run_by(SECOND_PROGRAM, n, area, rounds);

    return returned_alike(&run_call, library, other)
           && area_alike(&lent_answer) && area_alike(&lent_first) && area_alike(&lent_second);
}

/* ---- networks to start from ---- */

/* By the second program without faults, and with a set in place of those that run empty. */
static void make_network(uint8_t *cells, size_t n)
{
    static uint8_t first[CHACHAQOM_CELLS_LENGTH], second[CHACHAQOM_CELLS_LENGTH];
    uint8_t answer[CHACHAQOM_ANSWER_LENGTH];
    matrix_call *call = once_in(4) ? second_refine : second_prepare;
    int fault = second_fault;

    second_fault = SECOND_FAULT_NONE;
    if (call(n, cells, n * n, first, n * n, second, n * n, answer, sizeof answer) != 0) {
        memset(cells, CHACHAQOM_UNIVERSAL, n * n);
        state_rectangles(cells, n);
        second_prepare(n, cells, n * n, first, n * n, second, n * n, answer, sizeof answer);
    }
    second_fault = fault;
    memcpy(cells, first, n * n);
}

/* A cell, a pair or a region's own set becomes another; often one that is none of a network. */
static void damage_network(uint8_t *cells, size_t n)
{
    size_t i = below(n), j = below(n);

    switch (below(5)) {
    case 0:
        cells[i * n + j] = CHACHAQOM_EMPTY;
        break;
    case 1:
        cells[i * n + j] = cells[j * n + i] = CHACHAQOM_EMPTY;
        break;
    case 2:
        cells[i * n + i] = (uint8_t)(few_relations() | CHACHAQOM_EQUAL);
        break;
    case 3:
        cells[i * n + i] = few_relations();
        break;
    default:
        cells[i * n + j] = (uint8_t)random_word();
        break;
    }
}

/* One that was prepared or refined, most often whole, sometimes damaged; or whatever is stated. */
static void choose_network(uint8_t *cells, size_t n)
{
    state_any_style(cells, n);
    if (!once_in(8))
        make_network(cells, n);
    if (once_in(4))
        damage_network(cells, n);
}

/* ---- calls by themselves ---- */

static size_t few_rounds(void)
{
    return once_in(4) ? 0 : 1 + below(4);
}

/* Few of them, or a number that is few when it is cut to 32 bits, or all there are. */
static size_t choose_rounds(void)
{
    const size_t high = (size_t)1 << 32;

    if (once_in(6))
        return once_in(2) ? SIZE_MAX : high * (1 + below(9)) + few_rounds();
    return few_rounds();
}

/* A number that is no area, and would be one if it were cut or taken for another. */
static size_t hostile_area(void)
{
    const size_t numbers[] = { 0, 0, 3, 4, 255, 256, 257, 258, 65537, ((size_t)1 << 32) + 1,
                               ((size_t)1 << 32) + 2, (size_t)1 << 63, SIZE_MAX };

    return numbers[below(COUNT_OF(numbers))];
}

/* How long both work areas and the answer are, for n regions. */
static void choose_lengths(size_t n, size_t *lengths)
{
    lengths[0] = n * n + (once_in(2) ? below(40) : 0);
    lengths[1] = n * n + (once_in(2) ? below(40) : 0);
    lengths[2] = CHACHAQOM_ANSWER_LENGTH;
    if (once_in(12)) {
        size_t which = below(3);

        lengths[which] = hostile_length(which < 2 ? n * n : lengths[which]);
    }
}

/* Lends an area that holds a network in front, as far as it goes. */
static void lend_network(struct lent *area, const char *name, const uint8_t *cells, size_t n,
                         size_t length)
{
    size_t held = length < n * n ? length : n * n;

    lend(area, name, length);
    memcpy(area->before + GUARD, cells, held);
    memcpy(area->bytes[LIBRARY] + GUARD, cells, held);
    memcpy(area->bytes[SECOND_PROGRAM] + GUARD, cells, held);
}

static int compare_call(void)
{
    static uint8_t cells[CHACHAQOM_CELLS_LENGTH], others[CHACHAQOM_CELLS_LENGTH];
    size_t n = random_size(), size = n, lengths[3];
    size_t from = CHACHAQOM_FIRST_AREA + below(2), area = from;

    choose_network(cells, n);
    choose_network(others, n);
    choose_lengths(n, lengths);
    if (once_in(12))
        size = hostile_size(n);
    if (once_in(12))
        area = hostile_area();
    lend_network(&lent_first, "first", from == CHACHAQOM_FIRST_AREA ? cells : others, n, lengths[0]);
    lend_network(&lent_second, "second", from == CHACHAQOM_FIRST_AREA ? others : cells, n,
                 lengths[1]);
    lend(&lent_answer, "answer", lengths[2]);
    return compare_lent(size, area, choose_rounds());
}

/* ---- a refinement shared out over calls ---- */

/* What all calls come to; the fields are those of an answer. */
struct total {
    uint32_t number, places[3], count;
};

static struct total total_of(uint32_t number, uint32_t count)
{
    struct total total;
    size_t k;

    total.number = number;
    for (k = 0; k < 3; k++)
        total.places[k] = answered(&lent_answer, CHACHAQOM_ANSWER_PLACES + k);
    total.count = count;
    return total;
}

/* Both areas and the numbers are those that the second program's whole refinement comes to. */
static int as_whole(size_t n, const uint8_t *cells, struct total total)
{
    static uint8_t first[CHACHAQOM_CELLS_LENGTH], second[CHACHAQOM_CELLS_LENGTH];
    uint8_t answer[CHACHAQOM_ANSWER_LENGTH];
    uint32_t number = second_refine(n, cells, n * n, first, n * n, second, n * n,
                                    answer, sizeof answer);
    uint32_t count = chachaqom_number(answer, CHACHAQOM_ANSWER_COUNT);
    size_t k;

    if (total.number != number)
        return differs("number of a sharing-out", GUARD, total.number, number);
    for (k = 0; k < 3; k++) {
        uint32_t place = chachaqom_number(answer, CHACHAQOM_ANSWER_PLACES + k);

        if (total.places[k] != place)
            return differs("place of a sharing-out", GUARD + k, total.places[k], place);
    }
    if (total.count != count)
        return differs("counts of a sharing-out", GUARD, total.count, count);
    if (memcmp(lent_to(&lent_first, LIBRARY), first, n * n) != 0
        || memcmp(lent_to(&lent_second, LIBRARY), second, n * n) != 0)
        return differs("network of a sharing-out", GUARD, 0, 0);
    return left_from(&lent_first, n * n) && left_from(&lent_second, n * n);
}

static uint32_t prepare_by(int program, size_t n, const uint8_t *cells)
{
    return (program == LIBRARY ? chachaqom_prepare : second_prepare)(
        n, cells, n * n, lent_to(&lent_first, program), lent_first.length,
        lent_to(&lent_second, program), lent_second.length,
        lent_to(&lent_answer, program), lent_answer.length);
}

/* Runs from what a preparation left, a few rounds at a time, until they are not used up. */
static int share_out(size_t n, const uint8_t *cells)
{
    size_t area = CHACHAQOM_FIRST_AREA;
    uint32_t number, count = 0;

    do {
        if (!compare_lent(n, area, few_rounds()))
            return 0;
        number = answered(&lent_answer, CHACHAQOM_ANSWER_NUMBER);
        area = answered(&lent_answer, CHACHAQOM_ANSWER_PLACES);
        count += answered(&lent_answer, CHACHAQOM_ANSWER_COUNT);
    } while (number == CHACHAQOM_UNFINISHED);
    run_call.count++;
    return as_whole(n, cells, total_of(number, count));
}

static int compare_shared_out(void)
{
    static uint8_t cells[CHACHAQOM_CELLS_LENGTH];
    size_t n = random_size();
    uint32_t number, other;

    state_any_style(cells, n);
    lend(&lent_first, "first", n * n + below(40));
    lend(&lent_second, "second", n * n + below(40));
    lend(&lent_answer, "answer", CHACHAQOM_ANSWER_LENGTH);
    number = prepare_by(LIBRARY, n, cells);
    other = prepare_by(SECOND_PROGRAM, n, cells);
    if (number != other)
        return differs("number of preparing", GUARD, number, other);
    if (number != CHACHAQOM_ACCEPTED)
        return as_whole(n, cells, total_of(number, 0));
    return share_out(n, cells);
}

static int compare_runs(void)
{
    return once_in(3) ? compare_shared_out() : compare_call();
}

struct call run_call = {
    .name = "run",
    .compare = compare_runs,
    .answerable = { 0, 1, 2, 23, 24, 25, -1 },
    .counted = "refinements shared out over calls"
};
