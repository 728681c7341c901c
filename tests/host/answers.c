/* answers.c: the answer's 20 bytes, for every call alike. */
#include "host.h"

static struct guarded answer_area;

struct outcome outcome_of(uint32_t number, uint32_t i, uint32_t j, uint32_t k, uint32_t count)
{
    struct outcome outcome;

    outcome.number = number;
    outcome.places[0] = i;
    outcome.places[1] = j;
    outcome.places[2] = k;
    outcome.count = count;
    return outcome;
}

uint8_t *lend_answer(size_t length, int position)
{
    return lend(&answer_area, length, position);
}

static void expect_answer(struct outcome outcome)
{
    uint8_t bytes[CHACHAQOM_ANSWER_LENGTH];

    put_number(bytes, outcome.number);
    put_number(bytes + 4, outcome.places[0]);
    put_number(bytes + 8, outcome.places[1]);
    put_number(bytes + 12, outcome.places[2]);
    put_number(bytes + 16, outcome.count);
    expect_bytes(&answer_area, bytes, sizeof bytes);
}

/* The inline function takes the same numbers out. */
static void check_numbers(struct outcome outcome)
{
    const uint8_t *answer = answer_area.start;
    size_t k;

    check(chachaqom_number(answer, CHACHAQOM_ANSWER_NUMBER) == outcome.number, "number taken out");
    for (k = 0; k < 3; k++)
        check(chachaqom_number(answer, CHACHAQOM_ANSWER_PLACES + k) == outcome.places[k],
              "place taken out");
    check(chachaqom_number(answer, CHACHAQOM_ANSWER_COUNT) == outcome.count, "count taken out");
}

/* Nothing is expected in an answer of another length. */
void check_answer(uint32_t returned, struct outcome outcome)
{
    int written = answer_area.length == CHACHAQOM_ANSWER_LENGTH;

    if (written)
        expect_answer(outcome);
    check(returned == outcome.number, "returned number");
    check_area(&answer_area, "answer");
    if (written)
        check_numbers(outcome);
}
