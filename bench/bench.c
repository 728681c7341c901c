/*
 * bench.c: times chachaqom_refine beside other refinements, on the same networks in the same run,
 * accepted and refused. Every call goes on to another network of its kind, since the processor learns
 * one that is repeated. Whether the refinements accept, and the networks that they leave, are compared
 * before anything is timed. Times are processor time, the best of several batches, taken in turns;
 * the table gives the library's time and how many times as long each of the others took, the best of
 * each program with a star. The file has every time, in nanoseconds.
 *
 *     bench FILE MOST [EMULATOR]     up to MOST regions; EMULATOR: the command that runs this program,
 *                                    where there is one: then one short batch is made
 */
#ifndef _POSIX_C_SOURCE
#define _POSIX_C_SOURCE 200809L
#endif

#include "chachaqom.h"
#include "networks.h"
#include "refiners.h"

#include <stdio.h>
#include <stdlib.h>
#include <string.h>
#include <sys/utsname.h>
#include <time.h>

enum {
    BATCHES = 9,         /* where a turn over all networks is short, else: */
    BATCHES_OF_LONG = 3, /* with turns of more than LONG_NANOSECONDS */
    BATCH_NANOSECONDS = 4000000,
    LONG_NANOSECONDS = 40000000,
    NETWORKS = 256, /* of a kind and size, at most, and: */
    CELLS = 32768,  /* in all networks of a kind and size, at most: 8 networks of 64 regions */
    NETWORKS_EMULATED = 2,
    MOST = CHACHAQOM_CELLS_LENGTH
};

static const char *emulator = "";
static uint8_t cells[CELLS], first[MOST], second[MOST], expected[MOST];

/* ---- the refinements that are timed ---- */

static uint32_t refine_by_library(size_t n, const uint8_t *network, uint8_t *one, uint8_t *other,
                                  uint32_t *rounds)
{
    static uint8_t answer[CHACHAQOM_ANSWER_LENGTH];
    uint32_t number
        = chachaqom_refine(n, network, n * n, one, n * n, other, n * n, answer, sizeof answer);

    *rounds = chachaqom_number(answer, CHACHAQOM_ANSWER_COUNT);
    return number;
}

static const struct refiner library = { "library", "", "", 1, NULL, refine_by_library };
#ifdef RUSTC
static const struct refiner rust = { "plain Rust", RUSTC, "-O3", 1, NULL, rust_refine };
#endif

/* The library comes first: the others are compared with it. Those of one program stand together. */
static const struct refiner *const refiners[] = {
    &library,
    &plain_gcc_O2,
    &plain_gcc_O3,
    &plain_clang_O2,
    &plain_clang_O3,
#ifdef RUSTC
    &rust,
#endif
    &queue_gcc_O2,
    &queue_gcc_O3,
    &queue_clang_O2,
    &queue_clang_O3,
};

enum { REFINERS = sizeof refiners / sizeof refiners[0] };

/* ---- comparison ---- */

/* The networks of one kind and size, in `cells`. */
struct rotation {
    const struct kind *kind;
    size_t n, count;
    double rounds; /* of one network, on average */
};

/* Whether a refiner answers as the library did, and leaves the same network where it accepts. */
static int alike(const struct refiner *refiner, size_t n, const uint8_t *network, uint32_t number,
                 uint32_t rounds)
{
    uint32_t counted, answered = refiner->refine(n, network, first, second, &counted);

    if ((answered == CHACHAQOM_ACCEPTED) != (number == CHACHAQOM_ACCEPTED))
        return 0;
    if (refiner->exact && (answered != number || counted != rounds))
        return 0;
    return number != CHACHAQOM_ACCEPTED || memcmp(first, expected, n * n) == 0;
}

/* All refiners agree on a network, else the program ends; returns the count of rounds. */
static uint32_t compare_all(const struct rotation *rotation, const uint8_t *network)
{
    size_t n = rotation->n, which;
    uint32_t rounds, number = library.refine(n, network, first, second, &rounds);

    memcpy(expected, first, n * n);
    for (which = 0; which < REFINERS; which++)
        if (number != rotation->kind->number
            || !alike(refiners[which], n, network, number, rounds)) {
            printf("bench: %s, %s %s, %s, %zu regions: another result\n", refiners[which]->program,
                   refiners[which]->compiler, refiners[which]->flags, rotation->kind->name, n);
            exit(1);
        }
    return rounds;
}

/* Fills a rotation: as many networks as there is room for, each compared. */
static struct rotation make_rotation(const struct kind *kind, size_t n)
{
    struct rotation rotation = { kind, n, CELLS / (n * n), 0 };
    size_t most = kind->single ? 1 : emulator[0] != '\0' ? NETWORKS_EMULATED : NETWORKS, which;

    if (rotation.count > most)
        rotation.count = most;
    make_networks(kind, n, rotation.count, cells);
    for (which = 0; which < rotation.count; which++)
        rotation.rounds += compare_all(&rotation, cells + which * n * n);
    rotation.rounds /= (double)rotation.count;
    return rotation;
}

/* ---- times ---- */

/* Of processor time: that other programs run meanwhile does not count. */
static double nanoseconds(void)
{
    struct timespec now;

    clock_gettime(CLOCK_PROCESS_CPUTIME_ID, &now);
    return 1e9 * (double)now.tv_sec + (double)now.tv_nsec;
}

/* Nanoseconds for so many turns over the networks. */
static double time_turns(const struct refiner *refiner, const struct rotation *rotation, size_t turns)
{
    size_t n = rotation->n, which;
    double start = nanoseconds();
    uint32_t rounds;

    for (; turns > 0; turns--)
        for (which = 0; which < rotation->count; which++)
            refiner->refine(n, cells + which * n * n, first, second, &rounds);
    return nanoseconds() - start;
}

/* Nanoseconds for one call of each, in the best of several batches; they take turns. */
static void take_times(const struct rotation *rotation, double *best)
{
    double turn[REFINERS];
    size_t which, batch;

    for (which = 0; which < REFINERS; which++) {
        turn[which] = time_turns(refiners[which], rotation, 1);
        best[which] = turn[which] / (double)rotation->count;
    }
    for (batch = 0; batch < BATCHES && emulator[0] == '\0'; batch++)
        for (which = 0; which < REFINERS; which++) {
            size_t turns = 1 + (size_t)(BATCH_NANOSECONDS / (turn[which] + 1));
            double each;

            if (batch >= BATCHES_OF_LONG && turn[which] > LONG_NANOSECONDS)
                continue;
            each = time_turns(refiners[which], rotation, turns) / (double)(turns * rotation->count);
            if (each < best[which])
                best[which] = each;
        }
}

/* No other compiler made the same program faster. */
static int is_best(const double *best, size_t which)
{
    size_t other;

    for (other = 0; other < REFINERS; other++)
        if (strcmp(refiners[other]->program, refiners[which]->program) == 0
            && best[other] < best[which])
            return 0;
    return 1;
}

static void print_row(FILE *file, const struct rotation *rotation)
{
    const char *kind = rotation->kind->name;
    double best[REFINERS];
    size_t which;

    take_times(rotation, best);
    printf("%3zu %-8s %4zu %6lu %6.1f %11.3f", rotation->n, kind, rotation->count,
           (unsigned long)rotation->kind->number, rotation->rounds, best[0] / 1000);
    for (which = 1; which < REFINERS; which++)
        printf(" %7.2f%c", best[which] / best[0], is_best(best, which) ? '*' : ' ');
    printf("\n");
    fflush(stdout);
    for (which = 0; which < REFINERS; which++)
        fprintf(file, "%zu,%s,%lu,%zu,%.2f,%s,%s,%s,%.1f\n", rotation->n, kind,
                (unsigned long)rotation->kind->number, rotation->count, rotation->rounds,
                refiners[which]->program, refiners[which]->compiler, refiners[which]->flags,
                best[which]);
}

/* ---- the machine ---- */

/* The processor as Linux names it, or the numbers that it gives in place of a name. */
static void say_processor(FILE *file)
{
    static const char *const said[] = { "model name", "CPU implementer", "CPU part" };
    char line[256];
    FILE *about = fopen("/proc/cpuinfo", "r");
    size_t which;

    while (about != NULL && fgets(line, sizeof line, about) != NULL && line[0] != '\n')
        for (which = 0; which < sizeof said / sizeof said[0]; which++)
            if (strncmp(line, said[which], strlen(said[which])) == 0 && strchr(line, ':') != NULL)
                fprintf(file, "# %s%s", said[which], strchr(line, ':'));
    if (about != NULL)
        fclose(about);
}

static void say_machine(FILE *file)
{
    struct utsname names;
    size_t which;

    if (uname(&names) == 0)
        fprintf(file, "# machine: %s %s %s\n", names.sysname, names.release, names.machine);
    say_processor(file);
    for (which = 1; which < REFINERS; which++)
        fprintf(file, "# %s: %s, %s\n", refiners[which]->program, refiners[which]->compiler,
                refiners[which]->flags);
    if (emulator[0] == '\0')
        fprintf(file, "# run natively\n");
    else
        fprintf(file, "# run under an emulator (%s): these times say nothing\n", emulator);
}

/* A word of a compiler's name, enough for a column. */
static void print_heads(void)
{
    size_t which;

    printf("\n%3s %-8s %4s %6s %6s %11s", "n", "kind", "of", "number", "rounds", "library, us");
    for (which = 1; which < REFINERS; which++)
        printf(" %8.*s", (int)strcspn(refiners[which]->program, " "), refiners[which]->program);
    printf("  (times the library's time)\n%43s", "");
    for (which = 1; which < REFINERS; which++)
        printf(" %5.*s%s", (int)strcspn(refiners[which]->compiler, " "), refiners[which]->compiler,
               refiners[which]->flags);
    printf("\n");
}

int main(int argc, char **argv)
{
    FILE *file = argc > 2 ? fopen(argv[1], "w") : NULL;
    size_t most = argc > 2 ? (size_t)strtoul(argv[2], NULL, 10) : 0, n, which;

    if (file == NULL || most > CHACHAQOM_REGIONS_LIMIT) {
        fprintf(stderr, "bench FILE MOST [EMULATOR]: a file to write, and up to how many regions\n");
        return 2;
    }
    emulator = argc > 3 ? argv[3] : "";
    for (which = 0; which < REFINERS; which++)
        if (refiners[which]->prepare != NULL)
            refiners[which]->prepare();
    say_machine(stdout);
    say_machine(file);
    fprintf(file, "n,kind,number,networks,rounds,program,compiler,flags,nanoseconds\n");
    print_heads();
    for (n = 4; n <= most; n *= 2)
        for (which = 0; which < KINDS; which++) {
            struct rotation rotation = make_rotation(&kinds[which], n);

            print_row(file, &rotation);
        }
    return fclose(file) == 0 ? 0 : 1;
}
