/*
 * compare.c: compares the library's calls with the second program on random, damaged and hostile
 * inputs, byte by byte: what is returned, the answer, every lent area with the bytes before and
 * behind it, and the inputs, which no call may write. Rounds are shared out over calls at random and
 * held against the whole. What the library reads is written, and what it writes is read back.
 *
 *     compare [SEED [COUNT [FIRST]]]   compares inputs FIRST .. FIRST + COUNT - 1 of the seed
 *     compare faults [SEED]            plants each fault of the second program and requires that
 *                                      the comparison notices it
 *
 * An input depends on the seed and its own number alone, so that one can be made again by itself.
 */
#define _POSIX_C_SOURCE 200809L

#include "compare.h"

#include <errno.h>
#include <unistd.h>

enum {
    DEFAULT_COUNT = 100000,
    TOLD_EVERY = 1000,    /* inputs after which a terminal is told how far it is */
    FAULT_BOUND = 20000,  /* inputs within which a planted fault must be noticed */
    COVERED_FROM = 10000  /* from so many inputs on, each call must have given all its numbers */
};

#define DEFAULT_SEED UINT64_C(20231115)

static struct call *const calls[] = { &refine_call, &prepare_call, &run_call, &read_call,
                                      &write_call };

int quiet;
uint64_t current_seed, current_input;

static int compare_input(uint64_t seed, uint64_t input)
{
    current_seed = seed;
    current_input = input;
    start_random(seed, input);
    return calls[below(COUNT_OF(calls))]->compare();
}

/* Every number that a call can answer has occurred: else the comparison is blind to some. */
static int all_numbers_seen(const struct call *call)
{
    const int *number;
    int all = 1;

    for (number = call->answerable; *number >= 0; number++)
        if (call->seen[*number] == 0) {
            printf("compare: no input of %s was answered %d\n", call->name, *number);
            all = 0;
        }
    return all;
}

static void print_seen(const struct call *call)
{
    int number;

    printf("compare: %s answered (number: times)", call->name);
    for (number = 0; number < NUMBERS; number++)
        if (call->seen[number] > 0)
            printf(" %d: %" PRIu64, number, call->seen[number]);
    printf("; %s: %" PRIu64 "\n", call->counted, call->count);
}

/* How many inputs of how many, on standard error where that is a terminal. */
static void tell_progress(uint64_t done, uint64_t count)
{
    static int terminal = -1;

    if (terminal < 0)
        terminal = isatty(STDERR_FILENO);
    if (terminal && (done % TOLD_EVERY == 0 || done == count))
        fprintf(stderr, "\rcompare: %" PRIu64 " of %" PRIu64 " inputs%s", done, count,
                done == count ? "\n" : "");
}

static int run(uint64_t seed, uint64_t count, uint64_t first)
{
    uint64_t i, failed = 0;
    size_t call;

    printf("compare: seed %" PRIu64 "\n", seed);
    for (i = 0; i < count && failed < 10; i++) {
        failed += !compare_input(seed, first + i);
        tell_progress(i + 1, count);
    }
    for (call = 0; call < COUNT_OF(calls); call++) {
        print_seen(calls[call]);
        if (count >= COVERED_FROM && !all_numbers_seen(calls[call]))
            failed++;
    }
    printf("compare: %" PRIu64 " inputs, %" PRIu64 " failed\n", i, failed);
    return failed == 0 ? 0 : 1;
}

/* The number of inputs until the planted fault is noticed; 0 when it is not. */
static uint64_t noticed_after(uint64_t seed)
{
    uint64_t i;

    for (i = 0; i < FAULT_BOUND; i++)
        if (!compare_input(seed, i))
            return i + 1;
    return 0;
}

static int run_faults(uint64_t seed)
{
    int fault, missed = 0;

    printf("compare: seed %" PRIu64 ", planted faults\n", seed);
    quiet = 1;
    second_fault = SECOND_FAULT_NONE;
    if (noticed_after(seed) != 0) {
        printf("compare: a fault is noticed where none is planted\n");
        return 1;
    }
    for (fault = SECOND_FAULT_NONE + 1; fault < SECOND_FAULTS; fault++) {
        uint64_t after;

        second_fault = fault;
        after = noticed_after(seed);
        if (after == 0)
            missed++;
        printf("  %s: %s %" PRIu64 "\n", second_fault_name(fault),
               after == 0 ? "NOT NOTICED within" : "noticed at input",
               after == 0 ? (uint64_t)FAULT_BOUND : after);
    }
    printf("compare: %d faults planted, %d not noticed\n", SECOND_FAULTS - 1, missed);
    return missed == 0 ? 0 : 1;
}

/* The number that an argument gives; ends the program where it is none. */
static uint64_t argument(int argc, char **argv, int which, uint64_t otherwise)
{
    unsigned long long number;
    char *end;

    if (argc <= which)
        return otherwise;
    errno = 0;
    number = strtoull(argv[which], &end, 10);
    if (argv[which][0] >= '0' && argv[which][0] <= '9' && *end == '\0' && errno == 0)
        return number;
    fprintf(stderr, "compare: %s is not a number\n"
            "usage: compare [SEED [COUNT [FIRST]]], compare faults [SEED]\n", argv[which]);
    exit(2);
}

int main(int argc, char **argv)
{
    int faults = argc > 1 && strcmp(argv[1], "faults") == 0;
    uint64_t seed = argument(argc, argv, 1 + faults, DEFAULT_SEED);

    if (faults)
        return run_faults(seed);
    return run(seed, argument(argc, argv, 2, DEFAULT_COUNT), argument(argc, argv, 3, 0));
}
