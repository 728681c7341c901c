/* prepare.c: the second program's preparation: the refinement's checks and two of its rules. */
#include "inside.h"

static int preparing_lengths_wrong(size_t n, size_t cells, size_t first, size_t second)
{
    if (planted(SECOND_FAULT_PREPARING_WITHOUT_THE_SECOND))
        second = n * n;
    return cells != n * n || first < n * n || second < n * n;
}

/* What a refusal leaves: zeros in front of both areas. */
static void clear_areas(size_t n, uint32_t number, uint8_t *first, uint8_t *second)
{
    if (number == 21 && planted(SECOND_FAULT_AREAS_LEFT_BY_NODE))
        return;
    memset(first, 0, n * n);
    if (!planted(SECOND_FAULT_SECOND_AREA_UNCLEARED))
        memset(second, 0, n * n);
}

static struct outcome prepare_given(size_t n, const uint8_t *cells, uint8_t *first, uint8_t *second)
{
    struct matrix given, m;
    struct outcome outcome;

    take_matrix(&given, n, cells);
    m = given;
    outcome = make_ready(&m);
    if (outcome.number != 0) {
        clear_areas(n, outcome.number, first, second);
        return outcome;
    }
    if (planted(SECOND_FAULT_PREPARING_ROUND_ONE_TOO)) {
        struct matrix old = m;

        make_round(&old, &m, 1);
    }
    lay_matrix(planted(SECOND_FAULT_PREPARED_WITHOUT_THE_ARC_RULE) ? &given : &m, first);
    if (planted(SECOND_FAULT_PREPARED_IN_BOTH_AREAS))
        lay_matrix(&m, second);
    return outcome;
}

uint32_t second_prepare(size_t n, const uint8_t *cells, size_t cells_length,
                        uint8_t *first, size_t first_length,
                        uint8_t *second, size_t second_length,
                        uint8_t *answer, size_t answer_length)
{
    static uint8_t spare[REGIONS * REGIONS];

    if (answer_length != 20)
        return 2;
    if (planted(SECOND_FAULT_PREPARING_REGIONS_TAKEN_AS_A_BYTE))
        n = n % 256;
    if (planted(SECOND_FAULT_PREPARING_LENGTH_BEFORE_RANGE)
        && preparing_lengths_wrong(n, cells_length, first_length, second_length))
        return put_answer(answer, refused(2, 0, 0, 0, 0));
    if (out_of_range(n))
        return put_answer(answer, refused(1, 0, 0, 0, 0));
    if (preparing_lengths_wrong(n, cells_length, first_length, second_length))
        return put_answer(answer, refused(2, 0, 0, 0, 0));
    if (second_length < n * n) /* by a fault alone */
        second = spare;
    return put_answer(answer, prepare_given(n, cells, first, second));
}
