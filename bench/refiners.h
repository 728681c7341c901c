/*
 * refiners.h: the refinements that the library is measured beside. They are written to be timed,
 * take arrays of the right length, and refuse nothing but contradictions.
 */
#ifndef REFINERS_H
#define REFINERS_H

#include <stddef.h>
#include <stdint.h>

/*
 * A refinement as one compiler made it. `refine` leaves the network in the first area and returns 0,
 * or the number of the contradiction; *rounds receives the count of rounds.
 */
struct refiner {
    const char *program;  /* what it is: library, plain C, plain Rust, queue C */
    const char *compiler; /* with its version, empty where it is not known */
    const char *flags;
    int exact;             /* it numbers contradictions and counts rounds as the library does */
    void (*prepare)(void); /* to be called once; NULL where there is nothing to prepare */
    uint32_t (*refine)(size_t n, const uint8_t *cells, uint8_t *first, uint8_t *second,
                       uint32_t *rounds);
};

/* What the C refinements say of their own compiler. */
#define TEXT_OF(number) #number
#define VERSION_OF(major, minor, patch) TEXT_OF(major) "." TEXT_OF(minor) "." TEXT_OF(patch)
#ifdef __clang__
#define COMPILER "clang " VERSION_OF(__clang_major__, __clang_minor__, __clang_patchlevel__)
#else
#define COMPILER "gcc " VERSION_OF(__GNUC__, __GNUC_MINOR__, __GNUC_PATCHLEVEL__)
#endif

/* plain.c: rounds over the table of 64 compositions, as the library's rules say them. */
extern const struct refiner plain_gcc_O2, plain_gcc_O3, plain_clang_O2, plain_clang_O3;

/* plain.rs: the same in Rust. */
uint32_t rust_refine(size_t n, const uint8_t *cells, uint8_t *first, uint8_t *second,
                     uint32_t *rounds);

/*
 * queue.c: path consistency with a table of all 65,536 compositions of sets and a queue of changed
 * pairs, as reasoners of this kind do it. It stops at the first clash that it meets, whatever its
 * number or place, counts no rounds and works in one area.
 */
extern const struct refiner queue_gcc_O2, queue_gcc_O3, queue_clang_O2, queue_clang_O3;

#endif
