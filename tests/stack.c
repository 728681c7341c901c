/*
 * stack.c: how deep each call goes into the stack. A call runs on a stack of its own that is filled
 * with a mark; the deepest byte that has lost it is what the call used. Two marks are tried, since a
 * call may write one of them itself. Each call gets its largest inputs, accepted and refused; what
 * it used may not exceed what the header states. That a deep call is seen is tried first.
 */
#define _XOPEN_SOURCE 700

#include "chachaqom.h"

#include <stdio.h>
#include <stdlib.h>
#include <string.h>
#include <ucontext.h>

#define COUNT_OF(array) (sizeof (array) / sizeof (array)[0])

enum { STACK = 1 << 20, PLANTED = 50000 };

static uint8_t stack[STACK];
static ucontext_t here, there;
static void (*measured)(void);
static const uint8_t *called_from; /* where the stack stood when the call was made */

static uint8_t identifiers[CHACHAQOM_IDENTIFIERS_LENGTH], cells[CHACHAQOM_CELLS_LENGTH];
static uint8_t marks[CHACHAQOM_MARKS_LENGTH];
static uint8_t first[CHACHAQOM_CELLS_LENGTH], second[CHACHAQOM_CELLS_LENGTH];
static uint8_t scene[CHACHAQOM_SCENE_LIMIT + 1], buffer[CHACHAQOM_SCENE_LIMIT];
static uint8_t answer[CHACHAQOM_ANSWER_LENGTH];
static size_t n, area, rounds, scene_length;

static void refine(void)
{
    chachaqom_refine(n, cells, n * n, first, sizeof first, second, sizeof second,
                     answer, sizeof answer);
}

static void prepare(void)
{
    chachaqom_prepare(n, cells, n * n, first, sizeof first, second, sizeof second,
                      answer, sizeof answer);
}

/* The network is laid anew each time: a run writes both areas, and each call is measured twice. */
static void run(void)
{
    memcpy(area == CHACHAQOM_SECOND_AREA ? second : first, cells, sizeof cells);
    chachaqom_run(n, area, rounds, first, sizeof first, second, sizeof second,
                  answer, sizeof answer);
}

static void read_scene(void)
{
    chachaqom_read(scene, scene_length, identifiers, sizeof identifiers, cells, sizeof cells,
                   marks, sizeof marks, answer, sizeof answer);
}

static void write_scene(void)
{
    chachaqom_write(n, identifiers, n * CHACHAQOM_NUMBER_LENGTH, cells, n * n,
                    buffer, sizeof buffer, answer, sizeof answer);
}

/* A call that is known to go deep. */
static void go_deep(void)
{
    volatile uint8_t room[PLANTED];

    room[0] = 1;
    room[PLANTED - 1] = room[0];
}

static void on_own_stack(void)
{
    volatile uint8_t mark = 0;

    called_from = (const uint8_t *)&mark;
    measured();
    (void)mark;
}

static size_t depth_with(void (*call)(void), uint8_t mark)
{
    size_t deepest = 0;

    memset(stack, mark, sizeof stack);
    measured = call;
    if (getcontext(&there) != 0)
        exit(2);
    there.uc_stack.ss_sp = stack;
    there.uc_stack.ss_size = sizeof stack;
    there.uc_link = &here;
    makecontext(&there, on_own_stack, 0);
    if (swapcontext(&here, &there) != 0)
        exit(2);
    while (deepest < sizeof stack && stack[deepest] == mark)
        deepest++;
    return (size_t)(called_from - stack) - deepest;
}

static size_t depth(void (*call)(void))
{
    size_t one = depth_with(call, 0xA5), other = depth_with(call, 0x5A);

    return one > other ? one : other;
}

/* ---- the largest inputs ---- */

static void state_all(uint8_t set)
{
    n = CHACHAQOM_REGIONS_LIMIT;
    memset(cells, set, sizeof cells);
}

/* Each region inside the next: six rounds; and the last inside the first: refused with 23. */
static void state_chain(int closed)
{
    size_t i;

    state_all(CHACHAQOM_UNIVERSAL);
    for (i = 0; i + 1 < n; i++)
        cells[i * n + i + 1] = CHACHAQOM_INSIDE;
    if (closed)
        cells[(n - 1) * n] = CHACHAQOM_INSIDE;
}

/* What the rounds start from, in the cells. */
static void prepare_cells(int closed)
{
    state_chain(closed);
    prepare();
    memcpy(cells, first, sizeof cells);
}

static size_t put_number(uint8_t *bytes, size_t place, size_t number)
{
    size_t k;

    for (k = 0; k < CHACHAQOM_NUMBER_LENGTH; k++)
        bytes[place + k] = (uint8_t)(number >> (24 - 8 * k));
    return place + CHACHAQOM_NUMBER_LENGTH;
}

static void name_all(void)
{
    size_t i;

    for (i = 0; i < CHACHAQOM_REGIONS_LIMIT; i++)
        put_number(identifiers, i * CHACHAQOM_NUMBER_LENGTH, 1000 + i);
}

/* 64 regions, then statements as far as there is room, then the last byte as given. */
static void build_scene(uint8_t last)
{
    size_t place = 0, i;

    for (i = 0; i < CHACHAQOM_REGIONS_LIMIT; i++) {
        scene[place] = CHACHAQOM_KIND_REGION;
        place = put_number(scene, place + 1, 1000 + i);
    }
    for (i = 0; place + CHACHAQOM_STATEMENT_LENGTH < CHACHAQOM_SCENE_LIMIT; i++) {
        scene[place] = CHACHAQOM_KIND_STATEMENT;
        place = put_number(scene, place + 1, 1000 + i / 64 % 64);
        place = put_number(scene, place, 1000 + i % 64);
        scene[place++] = 254;
    }
    scene[place++] = last;
    scene_length = place;
}

/* ---- each call ---- */

static size_t deepest, answers;

static void measure(void (*call)(void), uint32_t expected)
{
    size_t used = depth(call);
    uint32_t number = chachaqom_number(answer, CHACHAQOM_ANSWER_NUMBER);

    if (number != expected) {
        printf("stack: answered %lu, not %lu\n", (unsigned long)number, (unsigned long)expected);
        exit(1);
    }
    answers++;
    deepest = used > deepest ? used : deepest;
}

static void measure_refine(void)
{
    state_all(CHACHAQOM_UNIVERSAL);
    measure(refine, CHACHAQOM_ACCEPTED);
    state_chain(0);
    measure(refine, CHACHAQOM_ACCEPTED);
    state_chain(1);
    measure(refine, CHACHAQOM_PATH);
    cells[n * n - 1] = CHACHAQOM_DISJOINT;
    measure(refine, CHACHAQOM_NODE);
    state_all(CHACHAQOM_UNIVERSAL);
    cells[n * n - n - 1] = CHACHAQOM_EMPTY;
    measure(refine, CHACHAQOM_ARC);
    n = CHACHAQOM_REGIONS_LIMIT + 1;
    measure(refine, CHACHAQOM_OUT_OF_RANGE);
}

static void measure_prepare(void)
{
    state_chain(0);
    measure(prepare, CHACHAQOM_ACCEPTED);
    cells[n * n - 1] = CHACHAQOM_DISJOINT;
    measure(prepare, CHACHAQOM_NODE);
    state_all(CHACHAQOM_UNIVERSAL);
    cells[n * n - n - 1] = CHACHAQOM_EMPTY;
    measure(prepare, CHACHAQOM_ARC);
    n = 0;
    measure(prepare, CHACHAQOM_OUT_OF_RANGE);
}

static void measure_run(void)
{
    prepare_cells(0);
    area = CHACHAQOM_FIRST_AREA;
    rounds = SIZE_MAX;
    measure(run, CHACHAQOM_ACCEPTED);
    rounds = 5;
    measure(run, CHACHAQOM_UNFINISHED);
    area = CHACHAQOM_SECOND_AREA;
    rounds = 0;
    measure(run, CHACHAQOM_UNFINISHED);
    prepare_cells(1);
    rounds = SIZE_MAX;
    measure(run, CHACHAQOM_PATH);
    cells[n * n - 1] = CHACHAQOM_UNIVERSAL;
    measure(run, CHACHAQOM_UNPREPARED);
    area = 0;
    measure(run, CHACHAQOM_OUT_OF_RANGE);
}

static void measure_read(void)
{
    build_scene(CHACHAQOM_KIND_END);
    measure(read_scene, CHACHAQOM_ACCEPTED);
    scene_length++;
    measure(read_scene, CHACHAQOM_AFTER_END);
    build_scene(0);
    measure(read_scene, CHACHAQOM_UNKNOWN_KIND);
    build_scene(CHACHAQOM_KIND_REGION);
    measure(read_scene, CHACHAQOM_CUT_SHORT);
    put_number(scene, 63 * CHACHAQOM_REGION_LENGTH + 1, 1000);
    measure(read_scene, CHACHAQOM_IDENTIFIER_TWICE);
    scene_length = sizeof scene;
    measure(read_scene, CHACHAQOM_TOO_LONG);
    build_scene(CHACHAQOM_KIND_END);
    scene[scene_length - 2] = CHACHAQOM_EMPTY;
    measure(read_scene, CHACHAQOM_SET_EMPTY);
    scene_length = 0;
    measure(read_scene, CHACHAQOM_CUT_SHORT);
}

static void measure_write(void)
{
    name_all();
    state_all(CHACHAQOM_UNIVERSAL);
    memset(cells, 254, 3244);
    measure(write_scene, CHACHAQOM_ACCEPTED);
    state_all(254);
    measure(write_scene, CHACHAQOM_TOO_LONG);
    cells[n * n - 1] = CHACHAQOM_EMPTY;
    measure(write_scene, CHACHAQOM_SET_EMPTY);
    put_number(identifiers, (n - 1) * CHACHAQOM_NUMBER_LENGTH, 1000);
    measure(write_scene, CHACHAQOM_IDENTIFIER_TWICE);
    put_number(identifiers, (n - 1) * CHACHAQOM_NUMBER_LENGTH, 0);
    measure(write_scene, CHACHAQOM_IDENTIFIER_ZERO);
    n = 0;
    measure(write_scene, CHACHAQOM_OUT_OF_RANGE);
}

static const struct {
    const char *name;
    void (*measure)(void);
    size_t stated;
} calls[] = {
    { "chachaqom_refine", measure_refine, CHACHAQOM_REFINE_STACK },
    { "chachaqom_prepare", measure_prepare, CHACHAQOM_PREPARE_STACK },
    { "chachaqom_run", measure_run, CHACHAQOM_RUN_STACK },
    { "chachaqom_read", measure_read, CHACHAQOM_READ_STACK },
    { "chachaqom_write", measure_write, CHACHAQOM_WRITE_STACK }
};

int main(void)
{
    size_t i, exceeded = 0, planted = depth(go_deep);

    if (planted < PLANTED || planted > PLANTED + 1000) {
        printf("stack: a call of %d bytes is measured as %lu\n", PLANTED, (unsigned long)planted);
        return 1;
    }
    for (i = 0; i < COUNT_OF(calls); i++) {
        deepest = 0;
        calls[i].measure();
        printf("stack: %s used %lu bytes, stated are %lu\n", calls[i].name,
               (unsigned long)deepest, (unsigned long)calls[i].stated);
        exceeded += deepest > calls[i].stated;
    }
    printf("stack: %lu calls, %lu inputs, %lu exceed what is stated\n",
           (unsigned long)COUNT_OF(calls), (unsigned long)answers, (unsigned long)exceeded);
    return exceeded == 0 ? 0 : 1;
}
