/*
 * compare.h: what the comparisons of every call share. A call has a file of its own with what is
 * compared of it; compare.c lists them.
 */
#ifndef COMPARE_H
#define COMPARE_H

#include "chachaqom.h"
#include "../second/second.h"

#include <inttypes.h>
#include <stdio.h>
#include <stdlib.h>
#include <string.h>

#define COUNT_OF(array) (sizeof (array) / sizeof (array)[0])

/* ---- the calls ---- */

enum { NUMBERS = CHACHAQOM_UNPREPARED + 1 };

struct call {
    const char *name;
    int (*compare)(void);    /* makes an input and compares; false where something differs */
    int answerable[NUMBERS]; /* the numbers that it can answer; -1 ends them */
    const char *counted;     /* what `count` counts */
    uint64_t count;
    uint64_t seen[NUMBERS];  /* how often each number was answered */
};

extern struct call refine_call, prepare_call, run_call, read_call, write_call;

/* A call that takes a matrix and two work areas, of either program. */
typedef uint32_t matrix_call(size_t n, const uint8_t *cells, size_t cells_length,
                             uint8_t *first, size_t first_length,
                             uint8_t *second, size_t second_length,
                             uint8_t *answer, size_t answer_length);

/* Compares one on a matrix of any style; counts the most rounds that it answered (refine.c). */
int compare_on_matrix(struct call *call, matrix_call *library, matrix_call *second_program);

/* Writes what was read of a scene of so many bytes into as many, and compares (write.c). */
int compare_written_again(size_t n, const uint8_t *identifiers, const uint8_t *cells,
                          size_t scene_length);

/* ---- random numbers (random.c) ---- */

void start_random(uint64_t seed, uint64_t input);
uint64_t random_word(void);
size_t below(size_t limit);

/* True once in so many times. */
int once_in(size_t times);

void fill_random(uint8_t *bytes, size_t length);

/* Numbers that are no size, for which a matrix of m regions is lent all the same. */
size_t hostile_size(size_t m);

size_t off_by_one(size_t length);
size_t hostile_length(size_t length);

/* ---- lent arrays (areas.c) ---- */

enum {
    GUARD = 64,  /* marked bytes before and behind each lent array */
    ROOM = 42000 /* more than the longest array that is lent */
};

enum { LIBRARY, SECOND_PROGRAM };

/* An array that is lent to both, with marked bytes around it, and how it was before. */
struct lent {
    const char *name;
    size_t length;
    int null; /* lent as a null pointer; its length is 0 then */
    uint8_t before[GUARD + ROOM + GUARD];
    uint8_t bytes[2][GUARD + ROOM + GUARD];
};

void lend(struct lent *lent, const char *name, size_t length);
void lend_input(struct lent *lent, const char *name, const uint8_t *input, size_t length);
uint8_t *lent_to(struct lent *lent, int program);

/* Each is false, and says so, where the two programs differ or something was touched. */
int area_alike(const struct lent *area);
int input_alike(const struct lent *input);
int returned_alike(struct call *call, uint32_t library, uint32_t second_program);

/* The array's bytes from the given one on, and those around it, are as before the call. */
int left_from(const struct lent *lent, size_t from);

/* A number of the answer that the library left. */
uint32_t answered(struct lent *answer, size_t k);

/* Says what differs, where; false. */
int differs(const char *what, size_t place, unsigned library, unsigned expected);

/* ---- networks (networks.c) ---- */

typedef void state_style(uint8_t *cells, size_t n); /* narrows cells that are all 255 */

state_style state_sparsely, state_rectangles, state_chain, state_anything, state_refined,
    state_blemishes, state_slow_clash;

/* A set of one to four relations, seldom an empty one. */
uint8_t few_relations(void);

/* Cells of any style, for n regions. */
void state_any_style(uint8_t *cells, size_t n);

/* A number of regions, mostly a small one. */
size_t random_size(void);

/* ---- scenes (scenes.c) ---- */

extern uint8_t scene[ROOM]; /* the scene that is being built */
extern size_t scene_length;

/* A scene that would be accepted, but for more than 64 regions or too great a length. */
void build_scene(void);
void damage_scene(void);

/* Different identifiers: small ones out of order, large ones, or ones that share most bytes. */
void choose_identifiers(uint32_t *identifiers, size_t count);

/* ---- the run ---- */

extern int quiet; /* faults are looked for: a difference is no failure */
extern uint64_t current_seed, current_input;

#endif
