/* matrices.h: what the checks of refining, preparing and running share (matrices.c). */
#ifndef MATRICES_H
#define MATRICES_H

#include "host.h"

struct lengths {
    size_t cells, first, second, answer;
};

struct lengths lengths_of(size_t cells, size_t first, size_t second, size_t answer);

/* Arrays just as long as n regions need. */
struct lengths exact(size_t n);

struct entry {
    uint8_t row, column, set; /* a set of 0 ends the list */
};

struct matrix_case {
    const char *name;
    size_t n;
    struct entry stated[6]; /* cells not given are 255 */
    uint32_t number, places[3], count;
    uint8_t network[16]; /* on acceptance */
};

extern const struct matrix_case twelve_cases[], program_cases[];
extern const size_t twelve_case_count, program_case_count;

void state(uint8_t *cells, size_t n, const struct entry *stated);

/* n regions, each inside the next, and their network. */
void state_chain(uint8_t *cells, uint8_t *network, size_t n);

#endif
