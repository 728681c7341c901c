/*
 * chachaqom.h: the calls of the region checker Chachaqom for a host in C or C++.
 *
 * A scene is a file that declares regions by identifier and states which of eight relations may
 * hold between two of them. chachaqom_read reads a scene into a matrix of relation sets, one cell
 * for each ordered pair of regions, and marks each cell with the statement that narrowed it last.
 * chachaqom_refine removes from such a matrix what cannot hold, or refuses it and names the region,
 * pair or triple at which nothing is left. chachaqom_prepare and chachaqom_run do the same a few
 * rounds at a time, for a host that redraws in between. chachaqom_write writes a scene from
 * identifiers and a matrix; reading it gives back both.
 *
 *     uint8_t identifiers[CHACHAQOM_IDENTIFIERS_LENGTH], cells[CHACHAQOM_CELLS_LENGTH];
 *     uint8_t marks[CHACHAQOM_MARKS_LENGTH];
 *     uint8_t first[CHACHAQOM_CELLS_LENGTH], second[CHACHAQOM_CELLS_LENGTH];
 *     uint8_t buffer[CHACHAQOM_SCENE_LIMIT], answer[CHACHAQOM_ANSWER_LENGTH];
 *
 *     if (chachaqom_read(scene, scene_length, identifiers, sizeof identifiers, cells, sizeof cells,
 *                        marks, sizeof marks, answer, sizeof answer) == CHACHAQOM_ACCEPTED) {
 *         size_t n = chachaqom_number(answer, CHACHAQOM_ANSWER_COUNT);
 *         if (chachaqom_refine(n, cells, n * n, first, n * n, second, n * n,
 *                              answer, sizeof answer) == CHACHAQOM_ACCEPTED)
 *             use(first);   // the set of region i towards region j is first[i * n + j]
 *         if (chachaqom_write(n, identifiers, n * CHACHAQOM_NUMBER_LENGTH, cells, n * n,
 *                             buffer, sizeof buffer, answer, sizeof answer) == CHACHAQOM_ACCEPTED)
 *             save(buffer, chachaqom_number(answer, CHACHAQOM_ANSWER_COUNT));
 *     }
 *
 * Sets. A set of relations is one byte, the sum of the values CHACHAQOM_DISJOINT to
 * CHACHAQOM_OVERLAP of its members. CHACHAQOM_UNIVERSAL says nothing about a pair;
 * CHACHAQOM_EMPTY leaves nothing.
 *
 * Places. A region has an identifier, a number that an author chose, and a place, its position
 * from 0 in the order of declaration. Rows, columns and named regions are places; identifiers[i]
 * is the identifier of the region at place i. The two are never used one for the other.
 *
 * Marks. The statements of a scene, its records of kind 2, have numbers from 1 in file order;
 * records of other kinds are not counted. The mark of a cell is the number of the last statement
 * that removed a relation from it, and 0 where none did, which is where the cell is
 * CHACHAQOM_UNIVERSAL.
 *
 * Numbers. What is wider than a byte crosses in bytes, big-endian: an identifier in four bytes, an
 * answer as five numbers of four bytes each, a mark in two bytes. chachaqom_number takes one of the
 * former out, chachaqom_mark one of the latter.
 *
 * Answers. The five numbers of an answer are
 *     0  CHACHAQOM_ANSWER_NUMBER   0 for acceptance, else the refusal number; also returned
 *     1  CHACHAQOM_ANSWER_PLACES   the first place that the refusal names, at 24 the area; 0 where
 *                                  there is none
 *     2                            the second place; 0 where there is none
 *     3                            the third place; 0 where there is none
 *     4  CHACHAQOM_ANSWER_COUNT    a count; which one, the call says
 *
 * Areas. Each array is lent for the call as a pointer and a length in bytes. A null pointer with
 * length 0 is an empty array. Arrays marked const are never written. No byte outside of an array
 * is read or written, and bytes past those that a call is said to fill stay as they were. No call
 * allocates, keeps a pointer, or uses anything but its arguments: calls on different areas may run
 * side by side. The arrays of one call must not overlap each other: that cannot be checked in C, and
 * nothing is promised where they do.
 *
 * Stack. A call uses at most the bytes of stack that CHACHAQOM_REFINE_STACK and its like say. They
 * are measured on the largest inputs, accepted and refused, and rounded up; they are not proved. A
 * loader that binds the C library's memcpy at its first call uses some of its own beside them.
 *
 * Linking. libchachaqom.a and libchachaqom.so.2 are x86-64 ELF code for the System V calling
 * convention (Linux), position independent. They need memcpy, memset and memmove, and nothing else.
 * They are linked, and this header compiled without a warning, with gcc and clang, as C99 or later
 * and as C++11 or later. On another processor use a cross compiler for x86-64.
 */
#ifndef CHACHAQOM_H
#define CHACHAQOM_H

#include <stddef.h>
#include <stdint.h>

/*
 * The version of this header and of the library that is installed with it. A host compares
 * CHACHAQOM_VERSION_NUMBER; the shared library's name, libchachaqom.so.2, has the first number.
 */
#define CHACHAQOM_VERSION "2.0.0"
#define CHACHAQOM_VERSION_NUMBER 20000 /* 10,000 * 2 + 100 * 0 + 0 */

#ifdef __cplusplus
extern "C" {
#endif

/* The eight relations of one region towards another, and two sets with names of their own. */
enum {
    CHACHAQOM_EMPTY = 0,       /* no relation is left */
    CHACHAQOM_DISJOINT = 1,    /* no point in common */
    CHACHAQOM_MEET = 2,        /* only boundary in common */
    CHACHAQOM_EQUAL = 4,       /* the same region */
    CHACHAQOM_INSIDE = 8,      /* within the other, away from its boundary */
    CHACHAQOM_COVERED_BY = 16, /* within the other, touching its boundary */
    CHACHAQOM_CONTAINS = 32,   /* the converse of inside */
    CHACHAQOM_COVERS = 64,     /* the converse of coveredBy */
    CHACHAQOM_OVERLAP = 128,   /* interiors in common, neither within the other */
    CHACHAQOM_UNIVERSAL = 255  /* all eight: nothing is known */
};

/* The kinds of record in a scene: the first byte of each. */
enum {
    CHACHAQOM_KIND_REGION = 1,    /* then the identifier, not 0 */
    CHACHAQOM_KIND_STATEMENT = 2, /* then identifier A, identifier B, the set of A towards B */
    CHACHAQOM_KIND_END = 3        /* then nothing; the last byte of the scene */
};

/* Limits, and lengths in bytes. */
enum {
    CHACHAQOM_REGIONS_LIMIT = 64,          /* the largest n */
    CHACHAQOM_SCENE_LIMIT = 32768,         /* the longest scene that is looked at or written */
    CHACHAQOM_NUMBER_LENGTH = 4,           /* an identifier, or a number of an answer */
    CHACHAQOM_IDENTIFIERS_LENGTH = 64 * 4, /* the identifiers of chachaqom_read, exactly */
    CHACHAQOM_CELLS_LENGTH = 64 * 64,      /* the cells of chachaqom_read, exactly */
    CHACHAQOM_MARK_LENGTH = 2,             /* a mark */
    CHACHAQOM_MARKS_LENGTH = 64 * 64 * 2,  /* the marks of chachaqom_read, exactly */
    CHACHAQOM_ANSWER_LENGTH = 5 * 4,       /* an answer, exactly */
    CHACHAQOM_REGION_LENGTH = 5,           /* a region record with its kind */
    CHACHAQOM_STATEMENT_LENGTH = 10,       /* a statement record with its kind */
    CHACHAQOM_END_LENGTH = 1               /* an end record, which is its kind */
};

/* Bytes of stack that a call uses at most. */
enum {
    CHACHAQOM_REFINE_STACK = 49152,
    CHACHAQOM_PREPARE_STACK = 1024,
    CHACHAQOM_RUN_STACK = 49152,
    CHACHAQOM_READ_STACK = 9216,
    CHACHAQOM_WRITE_STACK = 1024
};

/* The two work areas of chachaqom_run: no other number is one. */
enum {
    CHACHAQOM_FIRST_AREA = 1,
    CHACHAQOM_SECOND_AREA = 2
};

/* Which number of an answer is which, for chachaqom_number. */
enum {
    CHACHAQOM_ANSWER_NUMBER = 0,
    CHACHAQOM_ANSWER_PLACES = 1, /* and the two after it */
    CHACHAQOM_ANSWER_COUNT = 4
};

/*
 * The refusal numbers. For a scene that is read, "the record" is the byte at which the refused
 * record starts, counted from 0; for a matrix and for writing, places are those of regions.
 */
enum {
    CHACHAQOM_ACCEPTED = 0,
    CHACHAQOM_OUT_OF_RANGE = 1,     /* matrix, writing: n is 0 or over 64, names 0;
                                       running: or the area is neither 1 nor 2, names 0;
                                       reading: ends with no region, names the End record */
    CHACHAQOM_WRONG_LENGTH = 2,     /* the length of an array is wrong; names 0 */
    CHACHAQOM_TOO_LONG = 3,         /* the scene is, or would be, over 32,768 bytes; names 32,768 */
    CHACHAQOM_CUT_SHORT = 4,        /* the scene stops within a record, which is named, or where a
                                       record should start; then the scene's length is named */
    CHACHAQOM_UNKNOWN_KIND = 5,     /* the kind is none of the three; names the record */
    CHACHAQOM_IDENTIFIER_ZERO = 6,  /* identifier 0 is declared; names the record;
                                       writing: names the region's place */
    CHACHAQOM_IDENTIFIER_TWICE = 7, /* the identifier is declared already; names the record;
                                       writing: names the place of the later region */
    CHACHAQOM_TOO_MANY_REGIONS = 8, /* a 65th region, its identifier new; names the record */
    CHACHAQOM_NOT_DECLARED = 9,     /* a statement about an identifier not declared before it, 0
                                       included; names the record */
    CHACHAQOM_SET_EMPTY = 10,       /* a statement of the empty set; names the record;
                                       writing: an empty cell; names its row and column */
    CHACHAQOM_AFTER_END = 11,       /* bytes after the End record; names the first of them */
    CHACHAQOM_NO_ROOM = 12,         /* the buffer is shorter than the scene to write; names 0 */
    CHACHAQOM_NODE = 21,            /* a region cannot equal itself; names its place */
    CHACHAQOM_ARC = 22,             /* what is stated of a pair, both ways, leaves nothing; names
                                       the two places, the lower one first */
    CHACHAQOM_PATH = 23,            /* the sets ran out along a triple; names i, k, j: going
                                       through k left nothing of i towards j. The three differ */
    CHACHAQOM_UNFINISHED = 24,      /* running: the rounds are used up; names the area that holds
                                       the network, 1 or 2 */
    CHACHAQOM_UNPREPARED = 25       /* running: the network has an empty set, a diagonal other than
                                       equal, or a pair that is not converse; names 0 */
};

/*
 * Takes number k, from 0 to 4, out of an answer. It also takes identifier k, from 0 to 63, out of
 * the identifiers that chachaqom_read fills and chachaqom_write takes.
 */
static inline uint32_t chachaqom_number(const uint8_t *numbers, size_t k)
{
    const uint8_t *bytes = numbers + k * CHACHAQOM_NUMBER_LENGTH;
    uint32_t number = bytes[0];

    number = number << 8 | bytes[1];
    number = number << 8 | bytes[2];
    return number << 8 | bytes[3];
}

/* Takes mark k, from 0 to 4,095, out of the marks that chachaqom_read fills. */
static inline uint32_t chachaqom_mark(const uint8_t *marks, size_t k)
{
    const uint8_t *bytes = marks + k * CHACHAQOM_MARK_LENGTH;
    uint32_t mark = bytes[0];

    return mark << 8 | bytes[1];
}

/*
 * Refines a matrix: each set of the diagonal is intersected with equal (the node rule), each cell
 * with the converse of its opposite (the arc rule), and then, in rounds, with the compositions
 * through every third region, until a round changes nothing.
 *
 *   n              the number of regions, 1 to 64
 *   cells          the matrix row by row: cells[i * n + j] is the set of region i towards region j
 *   cells_length   exactly n * n
 *   first          a work area
 *   first_length   at least n * n
 *   second         a work area
 *   second_length  at least n * n
 *   answer         receives the answer
 *   answer_length  exactly CHACHAQOM_ANSWER_LENGTH
 *
 * Checked in this order, the first that fails is answered:
 *   2   answer_length is wrong             nothing at all is written, not even the answer
 *   1   n is 0 or over 64                  both work areas stay as they were
 *   2   another length is wrong            both work areas stay as they were
 *   21  a region cannot equal itself       names the least such place i
 *   22  a pair contradicts itself          names i, j: the first empty cell in row order, i < j
 *   23  a triple leaves nothing            names i, k, j: the first empty cell (i, j) of the round
 *                                          in row order, and the least k at which it ran empty
 * 21, 22 and 23 leave the first n * n bytes of both work areas 0.
 *
 * Acceptance (0) leaves the refined network, row by row as cells, in the first n * n bytes of both
 * work areas. It lies within the cells that were given, has no empty set, equal throughout on the
 * diagonal, and converse sets in opposite cells; the set of i towards j lies within the composition
 * of i towards k and k towards j, for every k; and it contains every other network of which all this
 * holds. It does not promise that an arrangement of regions in the plane exists.
 *
 * Bytes of a work area from n * n on are never written. The answer's count is the number of rounds
 * that changed something; for 23 the number of the refusing round, from 1; else 0.
 *
 * Returns the answer's number.
 */
uint32_t chachaqom_refine(size_t n, const uint8_t *cells, size_t cells_length,
                          uint8_t *first, size_t first_length,
                          uint8_t *second, size_t second_length,
                          uint8_t *answer, size_t answer_length);

/*
 * Prepares a matrix for chachaqom_run: the checks, the node rule and the arc rule of
 * chachaqom_refine, and none of its rounds.
 *
 *   n              the number of regions, 1 to 64
 *   cells          the matrix row by row: cells[i * n + j] is the set of region i towards region j
 *   cells_length   exactly n * n
 *   first          a work area; receives what the rounds start from
 *   first_length   at least n * n
 *   second         a work area
 *   second_length  at least n * n
 *   answer         receives the answer
 *   answer_length  exactly CHACHAQOM_ANSWER_LENGTH
 *
 * Checked in this order, the first that fails is answered:
 *   2   answer_length is wrong             nothing at all is written, not even the answer
 *   1   n is 0 or over 64                  both work areas stay as they were
 *   2   another length is wrong            both work areas stay as they were
 *   21  a region cannot equal itself       names the least such place i
 *   22  a pair contradicts itself          names i, j: the first empty cell in row order, i < j
 * 21 and 22 leave the first n * n bytes of both work areas 0. Each refusal is that of
 * chachaqom_refine, in answer and areas.
 *
 * Acceptance (0) leaves the prepared matrix, row by row as cells, in the first n * n bytes of first,
 * and the whole of second as it was. The rounds start from CHACHAQOM_FIRST_AREA; a call of
 * chachaqom_run from there, with the same n and both areas as they were left, is never refused with
 * 1, 2 or 25.
 *
 * Bytes of a work area from n * n on are never written. The answer's count is 0.
 *
 * Returns the answer's number.
 */
uint32_t chachaqom_prepare(size_t n, const uint8_t *cells, size_t cells_length,
                           uint8_t *first, size_t first_length,
                           uint8_t *second, size_t second_length,
                           uint8_t *answer, size_t answer_length);

/*
 * Makes up to so many rounds from the network in one of the work areas, the round that confirms that
 * nothing changes any more included. No rounds at all may be asked for: then only the checks are
 * made.
 *
 *     area = CHACHAQOM_FIRST_AREA, count = 0;
 *     number = chachaqom_prepare(n, cells, n * n, first, n * n, second, n * n,
 *                                answer, sizeof answer);
 *     if (number == CHACHAQOM_ACCEPTED)
 *         do {
 *             number = chachaqom_run(n, area, 1, first, n * n, second, n * n,
 *                                    answer, sizeof answer);
 *             count += chachaqom_number(answer, CHACHAQOM_ANSWER_COUNT);
 *             if (number == CHACHAQOM_UNFINISHED)
 *                 area = chachaqom_number(answer, CHACHAQOM_ANSWER_PLACES);
 *         } while (number == CHACHAQOM_UNFINISHED);
 *
 * However the rounds are shared out over such calls, calls with none included: once the number is
 * not 24, it and its places, the counts added up and both areas are those of chachaqom_refine.
 * Calls with a round or more each finish: there are at most 7 * n * (n - 1) / 2 + 1 of them.
 *
 *   n              the number of regions, 1 to 64
 *   area           which of the work areas holds the network: CHACHAQOM_FIRST_AREA or
 *                  CHACHAQOM_SECOND_AREA. After 24, the one that its answer names
 *   rounds         the most rounds to make; any number
 *   first          a work area, number 1
 *   first_length   at least n * n
 *   second         a work area, number 2
 *   second_length  at least n * n
 *   answer         receives the answer
 *   answer_length  exactly CHACHAQOM_ANSWER_LENGTH
 *
 * Checked in this order, the first that fails is answered:
 *   2   answer_length is wrong             nothing at all is written, not even the answer
 *   1   n is 0 or over 64                  both work areas stay as they were
 *   1   area is neither 1 nor 2            both work areas stay as they were
 *   2   another length is wrong            both work areas stay as they were
 *   25  the network has an empty set, a    both work areas stay as they were
 *       diagonal other than equal, or a
 *       pair that is not converse
 *   23  a triple leaves nothing            names i, k, j, as chachaqom_refine does; the first n * n
 *                                          bytes of both work areas are 0
 *   24  the rounds are used up             names the area that holds the last round's network in its
 *                                          first n * n bytes; the other one holds the network of the
 *                                          round before it there, after one round the one given.
 *                                          Where no round was asked for, both stay as they were and
 *                                          the area given is named
 * 24 is answered for no rounds also where the network is finished. A call from the area that 24
 * names, with the same n and both areas as they were left, is never refused with 1, 2 or 25.
 *
 * Acceptance (0) leaves the network that a round no longer changes in the first n * n bytes of both
 * work areas, and names no area. After chachaqom_prepare it is the one that chachaqom_refine leaves.
 *
 * Bytes of a work area from n * n on are never written. The answer's count is the number of rounds of
 * this call that changed something; for 23 the number of the refusing round in this call, from 1; for
 * 24 the rounds that were made, each of which changed something; else 0.
 *
 * Returns the answer's number.
 */
uint32_t chachaqom_run(size_t n, size_t area, size_t rounds,
                       uint8_t *first, size_t first_length,
                       uint8_t *second, size_t second_length,
                       uint8_t *answer, size_t answer_length);

/*
 * Reads a scene. A cell starts at CHACHAQOM_UNIVERSAL; a statement of A towards B is intersected
 * into the cell of A's row and B's column only. Statements that clash may leave a cell empty: the
 * scene is accepted all the same, and refining it is refused. A statement that removes a relation
 * from its cell leaves its number as that cell's mark; one that removes nothing leaves the mark.
 *
 *   scene               the bytes of the scene file
 *   scene_length        any; over 32,768 is refused
 *   identifiers         receives identifier i, big-endian, in the four bytes from 4 * i
 *   identifiers_length  exactly CHACHAQOM_IDENTIFIERS_LENGTH
 *   cells               receives the matrix, cell (i, j) at i * n + j
 *   cells_length        exactly CHACHAQOM_CELLS_LENGTH
 *   marks               receives the mark of cell (i, j), big-endian, in the two bytes from
 *                       2 * (i * n + j)
 *   marks_length        exactly CHACHAQOM_MARKS_LENGTH
 *   answer              receives the answer
 *   answer_length       exactly CHACHAQOM_ANSWER_LENGTH
 *
 * Checked in this order, the first that fails is answered:
 *   2   answer_length is wrong          nothing at all is written, not even the answer
 *   2   another length is wrong         identifiers, cells and marks stay as they were
 *   3   the scene is over 32,768 bytes
 * then record by record:
 *   4   no byte where a record should start
 *   5   unknown kind
 *   4   the record's body is cut short
 *   6, 7, 8   of a region: identifier 0, declared twice, 65th region
 *   9, 10     of a statement: A not declared, B not declared, set empty
 *   1, 11     of an end: no region was declared, bytes are left over
 * What each of them names, the list of refusal numbers says. All but 2 leave identifiers, cells and
 * marks 0 throughout.
 *
 * Acceptance (0) leaves the identifiers of the n regions in the first 4 * n bytes of identifiers,
 * the matrix in the first n * n bytes of cells, its marks in the first 2 * n * n bytes of marks, and
 * 0 in the rest of all three. A mark is at most 3,276: a scene has no more statements. The answer's
 * count is n, from 1 to 64; for a refusal it is 0.
 *
 * Returns the answer's number.
 */
uint32_t chachaqom_read(const uint8_t *scene, size_t scene_length,
                        uint8_t *identifiers, size_t identifiers_length,
                        uint8_t *cells, size_t cells_length,
                        uint8_t *marks, size_t marks_length,
                        uint8_t *answer, size_t answer_length);

/*
 * Writes a scene into the front of a buffer: a region record for each identifier, in place order;
 * then, row by row, a statement of region i towards region j for each cell (i, j), the diagonal
 * included, that is not CHACHAQOM_UNIVERSAL; then an end record. Reading that scene gives back the
 * same identifiers and cells; the marks are those of its own statements.
 *
 *   n                   the number of regions, 1 to CHACHAQOM_REGIONS_LIMIT
 *   identifiers         identifier i, big-endian, in the four bytes from 4 * i; never written
 *   identifiers_length  exactly 4 * n
 *   cells               the matrix, cell (i, j) at i * n + j; never written
 *   cells_length        exactly n * n
 *   buffer              receives the scene
 *   buffer_length       at least the scene's length: 5 * n + 10 * (cells other than 255) + 1. With
 *                       CHACHAQOM_SCENE_LIMIT there is room for every scene
 *   answer              receives the answer
 *   answer_length       exactly CHACHAQOM_ANSWER_LENGTH
 *
 * Checked in this order, the first that fails is answered:
 *   2   answer_length is wrong                       nothing at all is written, not even the answer
 *   1   n is 0 or over 64                            names 0
 *   2   identifiers_length or cells_length is wrong  names 0
 *   6   an identifier is 0                           names its place
 *   7   an identifier is repeated                    names the place of the later one
 *   10  a cell is empty                              names row and column, the first in row order
 *   3   the scene would be over 32,768 bytes         names 32,768
 *   12  the buffer is shorter than the scene         names 0
 * 6 and 7 go by place: the least place that has 0 or an earlier place's identifier is answered.
 * Every refusal leaves the whole buffer as it was.
 *
 * Acceptance (0) leaves the scene in the first bytes of the buffer and the rest as it was. The
 * answer's count is the scene's length in bytes, from 6 to 32,766; for a refusal it is 0. The
 * matrix is written as it is given: that it can be refined is not asked.
 *
 * Returns the answer's number.
 */
uint32_t chachaqom_write(size_t n, const uint8_t *identifiers, size_t identifiers_length,
                         const uint8_t *cells, size_t cells_length,
                         uint8_t *buffer, size_t buffer_length,
                         uint8_t *answer, size_t answer_length);

#ifdef __cplusplus
}
#endif

#endif
