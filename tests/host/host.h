/*
 * host.h: what the checks of every call share. A call has a file of its own with one function that
 * runs its checks; host.c lists them.
 */
#ifndef HOST_H
#define HOST_H

#ifndef _DEFAULT_SOURCE
#define _DEFAULT_SOURCE
#endif

#include "chachaqom.h"

#include <stdio.h>
#include <stdlib.h>
#include <string.h>

#define COUNT_OF(array) (sizeof (array) / sizeof (array)[0])

/* ---- the calls ---- */

void check_refine(void);
void check_prepare(void);
void check_run(void);
void check_read(void);
void check_write(void);

/* ---- checks ---- */

extern const char *checking; /* the case that is being run */

void check(int holds, const char *what);

/* Prints how many checks were made since the last group's end. */
void end_group(const char *name);

/* ---- arrays between guard pages (areas.c) ---- */

enum { ROOM = 49152 }; /* more than the longest array that is lent; whole pages */

/* Where an array lies: right behind a page that may not be touched, or right before one. */
enum { AT_START, AT_END, AT_END_OR_NULL, POSITIONS };

struct guarded {
    uint8_t *room;     /* ROOM bytes between two guard pages, made when first lent */
    uint8_t *start;    /* the array */
    size_t length;
    uint8_t expected[ROOM]; /* what the whole room must hold after the call */
};

/* Marks the room and lends so many bytes of it. */
uint8_t *lend(struct guarded *area, size_t length, int position);

/* Lends an input: at the end in pages that may only be read, at the start to be compared later. */
const uint8_t *lend_input(struct guarded *area, const uint8_t *bytes, size_t length, int position);

/* Lends so many bytes to be worked in, of which the first are given. */
uint8_t *lend_holding(struct guarded *area, const uint8_t *bytes, size_t given, size_t length,
                      int position);

/* Says what the first bytes of the array must hold after the call. */
void expect_bytes(struct guarded *area, const uint8_t *bytes, size_t length);
void expect_zero(struct guarded *area, size_t length);

void check_area(const struct guarded *area, const char *what);

/* ---- answers (answers.c) ---- */

struct outcome {
    uint32_t number;
    uint32_t places[3];
    uint32_t count;
};

struct outcome outcome_of(uint32_t number, uint32_t i, uint32_t j, uint32_t k, uint32_t count);

uint8_t *lend_answer(size_t length, int position);

/* What was returned, the answer's bytes, and the numbers that the inline function takes out. */
void check_answer(uint32_t returned, struct outcome outcome);

/* ---- scenes (scenes.c) ---- */

/* The bytes of a text in hexadecimal, spaces left out; how many. */
size_t from_hex(const char *text, uint8_t *bytes);

void put_number(uint8_t *bytes, uint32_t number);

extern uint8_t large[CHACHAQOM_SCENE_LIMIT + 10]; /* a scene that is being put together */

/* Each puts a record into the large scene; the place behind it. */
size_t put_region(size_t place, uint32_t identifier);
size_t put_statement(size_t place, uint32_t a, uint32_t b, uint8_t set);

/* Reads a scene, in every position, and expects the outcome and what is read (read.c). */
void read_scene(const uint8_t *scene, size_t length, struct outcome outcome,
                const uint8_t *identifiers, const uint8_t *cells, const uint8_t *marks);

#endif
