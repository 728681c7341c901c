/*
 * run.c: checks of chachaqom_run: round by round from either area, no rounds, networks that no round
 * can start from, numbers that are no area, lengths; and cases shared out over many calls.
 */
#include "matrices.h"

static struct guarded first_area, second_area;

/* Four regions in a chain: prepared, after one round, and refined. */
static const uint8_t prepared[16] = { 4, 8, 255, 255, 32, 4, 8, 255, 255, 32, 4, 8, 255, 255, 32, 4 };
static const uint8_t once[16] = { 4, 8, 8, 255, 32, 4, 8, 8, 32, 32, 4, 8, 255, 32, 32, 4 };
static const uint8_t refined[16] = { 4, 8, 8, 8, 32, 4, 8, 8, 32, 32, 4, 8, 32, 32, 32, 4 };

/* Three regions that clash in round 1, and five that clash in round 2. */
static const uint8_t clash[9] = { 4, 32, 2, 8, 4, 32, 2, 8, 4 };
static const uint8_t late[25] = { 4, 8, 255, 255, 2, 32, 4, 8, 255, 255, 255, 32, 4,
                                  8, 255, 255, 255, 32, 4, 8, 2, 255, 255, 32, 4 };
static const uint8_t late_once[25] = { 4, 8, 8, 1, 2, 32, 4, 8, 8, 224, 32, 32, 4,
                                       8, 8, 1, 32, 32, 4, 8, 2, 152, 32, 32, 4 };

/* Networks that no round can start from, each like `refined` but for a cell or two. */
static const uint8_t empty_pair[16] = { 4, 8, 8, 0, 32, 4, 8, 8, 32, 32, 4, 8, 0, 32, 32, 4 };
static const uint8_t empty_diagonal[16] = { 4, 8, 8, 8, 32, 4, 8, 8, 32, 32, 0, 8, 32, 32, 32, 4 };
static const uint8_t wide_diagonal[16] = { 4, 8, 8, 8, 32, 4, 8, 8, 32, 32, 4, 8, 32, 32, 32, 255 };
static const uint8_t meeting_itself[16] = { 2, 8, 8, 8, 32, 4, 8, 8, 32, 32, 4, 8, 32, 32, 32, 4 };
static const uint8_t unconverse[16] = { 4, 8, 8, 8, 32, 4, 8, 8, 32, 32, 4, 8, 8, 32, 32, 4 };
static const uint8_t half_converse[16] = { 4, 8, 8, 8, 32, 4, 8, 8, 32, 32, 4, 24, 32, 32, 32, 4 };

static const uint8_t zeros[25] = { 0 };

struct run_case {
    const char *name;
    size_t n, area, rounds;
    const uint8_t *first, *second; /* what the areas hold in front; marks where NULL */
    uint32_t number, places[3], count;
    const uint8_t *first_left, *second_left; /* afterwards; as before where NULL */
};

static void run_at(int position, const struct run_case *c, struct lengths lengths)
{
    size_t length = lengths.cells;
    uint8_t *first = lend_holding(&first_area, c->first, c->first == NULL ? 0 : length,
                                  lengths.first, position);
    uint8_t *second = lend_holding(&second_area, c->second, c->second == NULL ? 0 : length,
                                   lengths.second, position);
    uint8_t *answer = lend_answer(lengths.answer, position);
    uint32_t returned = chachaqom_run(c->n, c->area, c->rounds, first, lengths.first,
                                      second, lengths.second, answer, lengths.answer);

    if (c->first_left != NULL)
        expect_bytes(&first_area, c->first_left, length);
    if (c->second_left != NULL)
        expect_bytes(&second_area, c->second_left, length);
    check_answer(returned, outcome_of(c->number, c->places[0], c->places[1], c->places[2], c->count));
    check_area(&first_area, "first work area, or the bytes around it");
    check_area(&second_area, "second work area, or the bytes around it");
}

/* Of `lengths` the cells are how many bytes the areas are given in front. */
static void run_with(const struct run_case *c, struct lengths lengths)
{
    int position;

    for (position = 0; position < POSITIONS; position++)
        run_at(position, c, lengths);
}

static const struct run_case run_cases[] = {
    { "no round", 4, 1, 0, prepared, NULL, 24, { 1, 0, 0 }, 0, NULL, NULL },
    { "no round from the second area", 4, 2, 0, NULL, prepared, 24, { 2, 0, 0 }, 0, NULL, NULL },
    { "round 1", 4, 1, 1, prepared, NULL, 24, { 2, 0, 0 }, 1, NULL, once },
    { "round 1 over another network", 4, 1, 1, prepared, refined, 24, { 2, 0, 0 }, 1, NULL, once },
    { "round 2", 4, 2, 1, prepared, once, 24, { 1, 0, 0 }, 1, refined, NULL },
    { "the confirming round", 4, 1, 1, refined, once, 0, { 0, 0, 0 }, 0, NULL, refined },
    { "the confirming round from the second area", 4, 2, 1, once, refined,
      0, { 0, 0, 0 }, 0, refined, NULL },
    { "two rounds", 4, 1, 2, prepared, NULL, 24, { 1, 0, 0 }, 2, refined, once },
    { "two rounds from the second area", 4, 2, 2, NULL, prepared, 24, { 2, 0, 0 }, 2, once, refined },
    { "two rounds, the confirming one among them", 4, 2, 2, prepared, once,
      0, { 0, 0, 0 }, 1, refined, refined },
    { "three rounds", 4, 1, 3, prepared, NULL, 0, { 0, 0, 0 }, 2, refined, refined },
    { "three rounds from the second area", 4, 2, 3, NULL, prepared,
      0, { 0, 0, 0 }, 2, refined, refined },
    { "2 to the 32nd rounds", 4, 1, (size_t)1 << 32, prepared, NULL,
      0, { 0, 0, 0 }, 2, refined, refined },
    { "all the rounds there are", 4, 1, SIZE_MAX, prepared, NULL,
      0, { 0, 0, 0 }, 2, refined, refined },
    { "no round of a finished network", 4, 1, 0, refined, refined, 24, { 1, 0, 0 }, 0, NULL, NULL },
    { "one region", 1, 1, 1, prepared, NULL, 0, { 0, 0, 0 }, 0, NULL, prepared },
    { "a clash in round 1", 3, 1, 1, clash, NULL, 23, { 0, 2, 1 }, 1, zeros, zeros },
    { "a clash in round 1 from the second area", 3, 2, 9, NULL, clash,
      23, { 0, 2, 1 }, 1, zeros, zeros },
    { "a clash that no round reaches", 3, 1, 0, clash, NULL, 24, { 1, 0, 0 }, 0, NULL, NULL },
    { "a clash in round 2", 5, 1, 2, late, NULL, 23, { 0, 3, 1 }, 2, zeros, zeros },
    { "the round before that clash", 5, 1, 1, late, NULL, 24, { 2, 0, 0 }, 1, NULL, late_once },
    { "that clash in a call of its own", 5, 2, 1, late, late_once, 23, { 0, 3, 1 }, 1, zeros, zeros },
    { "an empty set, and its opposite", 4, 1, 1, empty_pair, NULL, 25, { 0, 0, 0 }, 0, NULL, NULL },
    { "an empty diagonal", 4, 2, 1, NULL, empty_diagonal, 25, { 0, 0, 0 }, 0, NULL, NULL },
    { "a diagonal with equal and more", 4, 1, 1, wide_diagonal, NULL,
      25, { 0, 0, 0 }, 0, NULL, NULL },
    { "a diagonal without equal", 4, 1, 2, meeting_itself, NULL, 25, { 0, 0, 0 }, 0, NULL, NULL },
    { "a pair that is not converse", 4, 1, 1, unconverse, NULL, 25, { 0, 0, 0 }, 0, NULL, NULL },
    { "a pair that is half converse", 4, 2, 1, refined, half_converse,
      25, { 0, 0, 0 }, 0, NULL, NULL },
    { "no round of a network that none can start from", 4, 1, 0, unconverse, refined,
      25, { 0, 0, 0 }, 0, NULL, NULL },
    { "a network that only the other area has damaged", 4, 1, 1, refined, unconverse,
      0, { 0, 0, 0 }, 0, NULL, refined },
    { "the other one", 4, 2, 1, empty_pair, refined, 0, { 0, 0, 0 }, 0, refined, NULL },
};

static void run_run_cases(void)
{
    size_t i;

    for (i = 0; i < COUNT_OF(run_cases); i++) {
        const struct run_case *c = &run_cases[i];
        size_t length = c->n * c->n;

        checking = c->name;
        run_with(c, exact(c->n));
        run_with(c, lengths_of(length, length + 1, length + 7, CHACHAQOM_ANSWER_LENGTH));
        run_with(c, lengths_of(length, length + 100, length, CHACHAQOM_ANSWER_LENGTH));
    }
}

/* ---- numbers and lengths that are none ---- */

/* A call that is refused and leaves all as it was. */
static void run_refused(size_t n, size_t area, const uint8_t *first, struct lengths lengths,
                        uint32_t number)
{
    struct run_case c = { NULL, 0, 0, 1, NULL, NULL, 0, { 0, 0, 0 }, 0, NULL, NULL };

    c.n = n;
    c.area = area;
    c.first = first;
    c.number = number;
    run_with(&c, lengths);
}

static void run_running_sizes(void)
{
    static const size_t sizes[] = { 0, 65, 256, 257, 320, (size_t)1 << 32, ((size_t)1 << 32) + 4,
                                    (size_t)1 << 63, SIZE_MAX };
    static const size_t areas[] = { 0, 3, 4, 255, 256, 257, 258, (size_t)1 << 32,
                                    ((size_t)1 << 32) + 1, ((size_t)1 << 63) + 2, SIZE_MAX };
    const size_t answer = CHACHAQOM_ANSWER_LENGTH;
    size_t i;

    checking = "running: a size out of range";
    for (i = 0; i < COUNT_OF(sizes); i++) {
        run_refused(sizes[i], 1, NULL, exact(0), CHACHAQOM_OUT_OF_RANGE);
        run_refused(sizes[i], 2, prepared, exact(4), CHACHAQOM_OUT_OF_RANGE);
        run_refused(sizes[i], 0, NULL, exact(65), CHACHAQOM_OUT_OF_RANGE);
    }
    checking = "running: no area";
    for (i = 0; i < COUNT_OF(areas); i++) {
        run_refused(4, areas[i], prepared, exact(4), CHACHAQOM_OUT_OF_RANGE);
        run_refused(4, areas[i], unconverse, exact(4), CHACHAQOM_OUT_OF_RANGE);
        run_refused(4, areas[i], NULL, lengths_of(0, 15, 16, answer), CHACHAQOM_OUT_OF_RANGE);
    }
}

static void run_running_lengths(void)
{
    const size_t answer = CHACHAQOM_ANSWER_LENGTH;
    const struct lengths wrong[] = {
        lengths_of(0, 15, 16, answer), lengths_of(0, 16, 15, answer), lengths_of(0, 0, 16, answer),
        lengths_of(0, 16, 0, answer), lengths_of(0, 0, 0, answer), lengths_of(0, 16, 16, answer - 1),
        lengths_of(0, 16, 16, answer + 1), lengths_of(0, 16, 16, 0), lengths_of(0, 0, 0, 0)
    };
    size_t i;

    checking = "running: a length off by one, or 0, before a network that no round can start from";
    for (i = 0; i < COUNT_OF(wrong); i++) {
        run_refused(4, 1, NULL, wrong[i], CHACHAQOM_WRONG_LENGTH);
        run_refused(4, 2, NULL, wrong[i], CHACHAQOM_WRONG_LENGTH);
    }
    checking = "running: an answer of another length comes first";
    run_refused(0, 1, prepared, lengths_of(16, 16, 16, answer - 1), CHACHAQOM_WRONG_LENGTH);
    run_refused(4, 3, prepared, lengths_of(16, 16, 16, answer + 1), CHACHAQOM_WRONG_LENGTH);
}

/* ---- rounds shared out over calls ---- */

enum { SHARES = 4 };

/* The most rounds of each call, again and again from the front. */
static const size_t sharings[][SHARES] = {
    { 1, 1, 1, 1 }, { 2, 2, 2, 2 }, { 0, 1, 0, 0 }, { 1, 0, 2, 3 }, { 3, 0, 0, 1 }, { 5, 1, 1, 0 },
    { SIZE_MAX, 0, 0, 0 }
};

static uint8_t shared_first[CHACHAQOM_CELLS_LENGTH], shared_second[CHACHAQOM_CELLS_LENGTH];

/* Prepares, then runs by a sharing-out until the rounds are not used up: what all of it comes to. */
static struct outcome share_out(size_t n, const uint8_t *cells, const size_t *shares)
{
    uint8_t answer[CHACHAQOM_ANSWER_LENGTH];
    size_t area = CHACHAQOM_FIRST_AREA, calls = 0, length = n * n;
    uint32_t count = 0;
    uint32_t number = chachaqom_prepare(n, cells, length, shared_first, length, shared_second, length,
                                        answer, sizeof answer);

    if (number == CHACHAQOM_ACCEPTED)
        do {
            number = chachaqom_run(n, area, shares[calls++ % SHARES], shared_first, length,
                                   shared_second, length, answer, sizeof answer);
            count += chachaqom_number(answer, CHACHAQOM_ANSWER_COUNT);
            area = chachaqom_number(answer, CHACHAQOM_ANSWER_PLACES);
        } while (number == CHACHAQOM_UNFINISHED && calls < 1000);
    return outcome_of(number, chachaqom_number(answer, 1), chachaqom_number(answer, 2),
                      chachaqom_number(answer, 3), count);
}

static void check_shared_out(size_t n, const uint8_t *cells, struct outcome whole,
                             const uint8_t *network)
{
    static const uint8_t cleared[CHACHAQOM_CELLS_LENGTH] = { 0 };
    const uint8_t *left = whole.number == CHACHAQOM_ACCEPTED ? network : cleared;
    size_t i, k;

    for (i = 0; i < COUNT_OF(sharings); i++) {
        struct outcome outcome = share_out(n, cells, sharings[i]);

        check(outcome.number == whole.number, "number of rounds shared out");
        for (k = 0; k < 3; k++)
            check(outcome.places[k] == whole.places[k], "places of rounds shared out");
        check(outcome.count == whole.count, "counts of rounds shared out, added up");
        check(memcmp(shared_first, left, n * n) == 0, "first area of rounds shared out");
        check(memcmp(shared_second, left, n * n) == 0, "second area of rounds shared out");
    }
}

static void share_out_cases(const struct matrix_case *cases, size_t count)
{
    uint8_t cells[16];
    size_t i;

    for (i = 0; i < count; i++) {
        const struct matrix_case *c = &cases[i];

        checking = c->name;
        state(cells, c->n, c->stated);
        check_shared_out(c->n, cells, outcome_of(c->number, c->places[0], c->places[1], c->places[2],
                                                 c->count), c->network);
    }
}

static void share_out_chains(void)
{
    static uint8_t cells[CHACHAQOM_CELLS_LENGTH], network[CHACHAQOM_CELLS_LENGTH];
    const size_t n = CHACHAQOM_REGIONS_LIMIT;

    state_chain(cells, network, n);
    checking = "64 regions in a chain, a few rounds at a time";
    check_shared_out(n, cells, outcome_of(CHACHAQOM_ACCEPTED, 0, 0, 0, 6), network);
    checking = "64 regions in a chain that closes, a few rounds at a time";
    cells[(n - 1) * n] = CHACHAQOM_INSIDE;
    check_shared_out(n, cells, outcome_of(CHACHAQOM_PATH, 0, 48, 32, 5), NULL);
}

void check_run(void)
{
    run_run_cases();
    end_group("rounds from either area");
    run_running_sizes();
    run_running_lengths();
    end_group("sizes, areas and lengths of running");
    share_out_cases(twelve_cases, twelve_case_count);
    share_out_cases(program_cases, program_case_count);
    share_out_chains();
    end_group("rounds shared out");
}
