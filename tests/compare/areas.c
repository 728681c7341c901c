/* areas.c: arrays that are lent to both programs, and what they leave in them. */
#include "compare.h"

static size_t whole(const struct lent *lent)
{
    return GUARD + lent->length + GUARD;
}

void lend(struct lent *lent, const char *name, size_t length)
{
    lent->name = name;
    lent->length = length;
    lent->null = length == 0 && once_in(2);
    fill_random(lent->before, whole(lent));
    memcpy(lent->bytes[LIBRARY], lent->before, whole(lent));
    memcpy(lent->bytes[SECOND_PROGRAM], lent->before, whole(lent));
}

void lend_input(struct lent *lent, const char *name, const uint8_t *input, size_t length)
{
    lend(lent, name, length);
    memcpy(lent->before + GUARD, input, length);
    memcpy(lent->bytes[LIBRARY] + GUARD, input, length);
    memcpy(lent->bytes[SECOND_PROGRAM] + GUARD, input, length);
}

uint8_t *lent_to(struct lent *lent, int program)
{
    return lent->null ? NULL : lent->bytes[program] + GUARD;
}

int differs(const char *what, size_t place, unsigned library, unsigned expected)
{
    if (!quiet)
        printf("compare: seed %" PRIu64 ", input %" PRIu64 ": %s, place %ld: library %u, "
               "expected %u\n  again with: compare %" PRIu64 " 1 %" PRIu64 "\n",
               current_seed, current_input, what, (long)place - GUARD, library, expected,
               current_seed, current_input);
    return 0;
}

/* Both programs left the same bytes in the array and around it. */
static int left_alike(const struct lent *lent)
{
    const uint8_t *library = lent->bytes[LIBRARY], *other = lent->bytes[SECOND_PROGRAM];
    size_t i;

    if (memcmp(library, other, whole(lent)) == 0)
        return 1;
    for (i = 0; library[i] == other[i]; i++)
        ;
    return differs(lent->name, i, library[i], other[i]);
}

/* The bytes from..to are as before the call: guards, and inputs. */
static int left_untouched(const struct lent *lent, size_t from, size_t to)
{
    size_t i;

    for (i = from; i < to; i++)
        if (lent->bytes[LIBRARY][i] != lent->before[i])
            return differs(lent->name, i, lent->bytes[LIBRARY][i], lent->before[i]);
    return 1;
}

int area_alike(const struct lent *area)
{
    return left_alike(area) && left_untouched(area, 0, GUARD)
           && left_untouched(area, whole(area) - GUARD, whole(area));
}

int input_alike(const struct lent *input)
{
    return left_alike(input) && left_untouched(input, 0, whole(input));
}

int left_from(const struct lent *lent, size_t from)
{
    return left_untouched(lent, 0, GUARD) && left_untouched(lent, GUARD + from, whole(lent));
}

int returned_alike(struct call *call, uint32_t library, uint32_t second_program)
{
    if (library != second_program)
        return differs("returned number", GUARD, library, second_program);
    if (library < NUMBERS)
        call->seen[library]++;
    return 1;
}

uint32_t answered(struct lent *answer, size_t k)
{
    return chachaqom_number(lent_to(answer, LIBRARY), k);
}
