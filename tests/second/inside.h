/* inside.h: what the parts of the second program share. */
#ifndef INSIDE_H
#define INSIDE_H

#include "second.h"

#include <string.h>

#define REGIONS 64
#define SCENE_LENGTH 32768
#define EQUAL 4
#define UNIVERSAL 255

int planted(int fault);

/* What a call answers. */
struct outcome {
    uint32_t number;
    uint32_t places[3];
    uint32_t count;
};

struct outcome refused(uint32_t number, size_t i, size_t j, size_t k, size_t count);
struct outcome accepted(size_t count);

void put_number(uint8_t *bytes, uint32_t number);
uint32_t get_number(const uint8_t *bytes);

/* Lays the answer into 20 bytes; its number. */
uint32_t put_answer(uint8_t *answer, struct outcome outcome);

/* No number of regions. */
int out_of_range(size_t n);

uint8_t converse(uint8_t set);
uint8_t compose(uint8_t a, uint8_t b);

/* A matrix of relation sets (refine.c). */
struct matrix {
    size_t n;
    uint8_t cell[REGIONS][REGIONS];
};

void take_matrix(struct matrix *m, size_t n, const uint8_t *cells);
void lay_matrix(const struct matrix *m, uint8_t *area);

/* The node rule and the arc rule. */
struct outcome make_ready(struct matrix *m);

/* A round: what it makes of a matrix, and what it comes to: 23 as the given round, or 0. */
struct outcome make_round(const struct matrix *old, struct matrix *next, size_t round);

int same(const struct matrix *a, const struct matrix *b);

/* What a scene says: identifiers by place, cells, and by which statement each was last narrowed. */
struct scene {
    size_t count;
    size_t statements; /* how many were taken in */
    uint32_t identifier[REGIONS];
    uint8_t cell[REGIONS][REGIONS];
    uint16_t mark[REGIONS][REGIONS];
};

/* The place of an identifier; the count of regions where it is not declared. */
size_t find(const struct scene *s, uint32_t identifier);

#endif
