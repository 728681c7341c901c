/* matrices.c: matrices to refine, whole and a few rounds at a time, and how long their arrays are. */
#include "matrices.h"

struct lengths lengths_of(size_t cells, size_t first, size_t second, size_t answer)
{
    struct lengths lengths;

    lengths.cells = cells;
    lengths.first = first;
    lengths.second = second;
    lengths.answer = answer;
    return lengths;
}

struct lengths exact(size_t n)
{
    return lengths_of(n * n, n * n, n * n, CHACHAQOM_ANSWER_LENGTH);
}

const struct matrix_case twelve_cases[] = {
    { "case 1", 1, { { 0, 0, 255 } }, 0, { 0, 0, 0 }, 0, { 4 } },
    { "case 2", 1, { { 0, 0, 251 } }, 21, { 0, 0, 0 }, 0, { 0 } },
    { "case 3", 2, { { 0, 1, 8 } }, 0, { 0, 0, 0 }, 0, { 4, 8, 32, 4 } },
    { "case 4", 2, { { 0, 1, 8 }, { 1, 0, 8 } }, 22, { 0, 1, 0 }, 0, { 0 } },
    { "case 5", 2, { { 0, 1, 24 }, { 1, 0, 33 } }, 0, { 0, 0, 0 }, 0, { 4, 8, 32, 4 } },
    { "case 6", 3, { { 0, 1, 8 }, { 1, 2, 8 } }, 0, { 0, 0, 0 }, 1,
      { 4, 8, 8, 32, 4, 8, 32, 32, 4 } },
    { "case 7", 3, { { 0, 1, 32 }, { 1, 2, 32 }, { 0, 2, 2 } }, 23, { 0, 2, 1 }, 1, { 0 } },
    { "case 8", 4, { { 0, 1, 8 }, { 1, 2, 8 }, { 2, 3, 8 } }, 0, { 0, 0, 0 }, 2,
      { 4, 8, 8, 8, 32, 4, 8, 8, 32, 32, 4, 8, 32, 32, 32, 4 } },
    { "case 9", 3, { { 0, 1, 2 }, { 1, 2, 2 } }, 0, { 0, 0, 0 }, 1,
      { 4, 2, 215, 2, 4, 2, 215, 2, 4 } },
    { "case 10", 3, { { 0, 1, 2 }, { 1, 2, 32 } }, 0, { 0, 0, 0 }, 1,
      { 4, 2, 1, 2, 4, 32, 1, 8, 4 } },
    { "case 11", 3, { { 0, 1, 255 } }, 0, { 0, 0, 0 }, 0,
      { 4, 255, 255, 255, 4, 255, 255, 255, 4 } },
};

const size_t twelve_case_count = COUNT_OF(twelve_cases);

/* The paper's examples, its regions A to D at places 0 to 3, and a set that runs out in two steps. */
const struct matrix_case program_cases[] = {
    { "example 12", 4, { { 0, 1, 8 }, { 1, 2, 8 }, { 2, 3, 8 } }, 0, { 0, 0, 0 }, 2,
      { 4, 8, 8, 8, 32, 4, 8, 8, 32, 32, 4, 8, 32, 32, 32, 4 } },
    { "example 13", 4, { { 0, 1, 32 }, { 1, 2, 2 }, { 0, 3, 1 }, { 3, 2, 128 } },
      0, { 0, 0, 0 }, 1,
      { 4, 32, 128, 1, 8, 4, 2, 1, 128, 2, 4, 128, 1, 1, 128, 4 } },
    { "example 14", 4, { { 0, 3, 128 }, { 1, 3, 128 }, { 2, 1, 8 }, { 2, 0, 1 } },
      0, { 0, 0, 0 }, 1,
      { 4, 155, 1, 128, 227, 4, 32, 128, 1, 8, 4, 155, 128, 128, 227, 4 } },
    { "example 15", 3, { { 1, 2, 155 }, { 1, 0, 64 }, { 0, 2, 2 } }, 0, { 0, 0, 0 }, 1,
      { 4, 16, 2, 64, 4, 130, 2, 130, 4 } },
    { "sets that run out through two regions", 4,
      { { 0, 2, 64 }, { 0, 3, 2 }, { 1, 2, 2 }, { 1, 3, 16 }, { 2, 3, 129 } },
      23, { 2, 1, 3 }, 1, { 0 } },
};

const size_t program_case_count = COUNT_OF(program_cases);

void state(uint8_t *cells, size_t n, const struct entry *stated)
{
    memset(cells, CHACHAQOM_UNIVERSAL, n * n);
    for (; stated->set != 0; stated++)
        cells[stated->row * n + stated->column] = stated->set;
}

void state_chain(uint8_t *cells, uint8_t *network, size_t n)
{
    size_t i, j;

    memset(cells, CHACHAQOM_UNIVERSAL, n * n);
    for (i = 0; i < n; i++)
        for (j = 0; j < n; j++) {
            if (j == i + 1)
                cells[i * n + j] = CHACHAQOM_INSIDE;
            network[i * n + j] = i == j  ? CHACHAQOM_EQUAL
                                 : i < j ? CHACHAQOM_INSIDE
                                         : CHACHAQOM_CONTAINS;
        }
}
