/* write.c: chachaqom_write compared on identifiers and cells; what it writes is read back. */
#include "compare.h"

static struct lent lent_identifiers, lent_cells, lent_buffer, lent_answer;

/* The bytes begin with the given ones and go on with zeros. */
static int same_then_zeros(const char *what, const uint8_t *bytes, size_t length,
                           const uint8_t *given, size_t given_length)
{
    size_t i;

    for (i = 0; i < length; i++) {
        uint8_t expected = i < given_length ? given[i] : 0;

        if (bytes[i] != expected)
            return differs(what, GUARD + i, bytes[i], expected);
    }
    return 1;
}

/* The marks of what was written: statements in row order, one for each cell that is not 255. */
static int marks_in_row_order(const uint8_t *marks, const uint8_t *cells)
{
    unsigned statements = 0;
    size_t i;

    for (i = 0; i < CHACHAQOM_CELLS_LENGTH; i++) {
        int stated = cells[i] != CHACHAQOM_UNIVERSAL && cells[i] != CHACHAQOM_EMPTY;
        unsigned mark = chachaqom_mark(marks, i), expected = stated ? ++statements : 0;

        if (mark != expected)
            return differs("marks read back", GUARD + i, mark, expected);
    }
    return 1;
}

/* What was written is read back to the identifiers and cells that were given, with its own marks. */
static int reads_back(size_t n, size_t written)
{
    static uint8_t identifiers[CHACHAQOM_IDENTIFIERS_LENGTH], cells[CHACHAQOM_CELLS_LENGTH];
    static uint8_t marks[CHACHAQOM_MARKS_LENGTH];
    uint8_t answer[CHACHAQOM_ANSWER_LENGTH];
    uint32_t number, count;

    memset(identifiers, 0xA5, sizeof identifiers);
    memset(cells, 0xA5, sizeof cells);
    memset(marks, 0xA5, sizeof marks);
    number = chachaqom_read(lent_to(&lent_buffer, LIBRARY), written,
                            identifiers, sizeof identifiers, cells, sizeof cells,
                            marks, sizeof marks, answer, sizeof answer);
    count = chachaqom_number(answer, CHACHAQOM_ANSWER_COUNT);
    write_call.count++;
    if (number != CHACHAQOM_ACCEPTED)
        return differs("number of reading back", GUARD, number, CHACHAQOM_ACCEPTED);
    if (count != n)
        return differs("regions read back", GUARD, count, (unsigned)n);
    return same_then_zeros("identifiers read back", identifiers, sizeof identifiers,
                           lent_identifiers.before + GUARD, n * CHACHAQOM_NUMBER_LENGTH)
           && same_then_zeros("cells read back", cells, sizeof cells, lent_cells.before + GUARD,
                              n * n)
           && marks_in_row_order(marks, cells);
}

static uint32_t write_by(int program, size_t n)
{
    return (program == LIBRARY ? chachaqom_write : second_write)(
        n, lent_to(&lent_identifiers, program), lent_identifiers.length,
        lent_to(&lent_cells, program), lent_cells.length,
        lent_to(&lent_buffer, program), lent_buffer.length,
        lent_to(&lent_answer, program), lent_answer.length);
}

static int compare_lent(size_t n)
{
    uint32_t library = write_by(LIBRARY, n), other = write_by(SECOND_PROGRAM, n);
    size_t written;

    if (!(returned_alike(&write_call, library, other)
          && area_alike(&lent_answer) && area_alike(&lent_buffer)
          && input_alike(&lent_identifiers) && input_alike(&lent_cells)))
        return 0;
    if (library != CHACHAQOM_ACCEPTED)
        return left_from(&lent_buffer, 0);
    written = answered(&lent_answer, CHACHAQOM_ANSWER_COUNT);
    return left_from(&lent_buffer, written) && reads_back(n, written);
}

/* An accepted scene is never longer when it is written; only an empty cell hinders it. */
int compare_written_again(size_t n, const uint8_t *identifiers, const uint8_t *cells,
                          size_t scene_length)
{
    uint32_t expected = memchr(cells, CHACHAQOM_EMPTY, n * n) != NULL ? CHACHAQOM_SET_EMPTY
                                                                      : CHACHAQOM_ACCEPTED;
    uint32_t number;

    lend_input(&lent_identifiers, "identifiers", identifiers, n * CHACHAQOM_NUMBER_LENGTH);
    lend_input(&lent_cells, "cells", cells, n * n);
    lend(&lent_buffer, "buffer", scene_length);
    lend(&lent_answer, "answer", CHACHAQOM_ANSWER_LENGTH);
    if (!compare_lent(n))
        return 0;
    number = answered(&lent_answer, CHACHAQOM_ANSWER_NUMBER);
    return number == expected || differs("writing what was read", GUARD, number, expected);
}

/* ---- what is given to write ---- */

enum { MOST = CHACHAQOM_REGIONS_LIMIT + 1 }; /* one region more than there may be */

static uint32_t given_identifiers[MOST];
static uint8_t given_cells[MOST * MOST + 1]; /* a byte more, for a length off by one */

static uint8_t random_stated(void)
{
    return (uint8_t)(1 + below(CHACHAQOM_UNIVERSAL - 1));
}

/* So many of the cells, chosen at random, are stated; the others are 255. */
static void state_so_many(uint8_t *cells, size_t n, size_t count)
{
    size_t left = n * n, i;

    for (i = 0; left > 0; i++, left--)
        if (below(left) < count) {
            cells[i] = random_stated();
            count--;
        }
}

static void state_some(uint8_t *cells, size_t n)
{
    state_so_many(cells, n, below(n * n + 1));
}

static void state_every_cell(uint8_t *cells, size_t n)
{
    state_so_many(cells, n, n * n);
}

/* The last cell, the first or both, and little else. */
static void state_corners(uint8_t *cells, size_t n)
{
    state_so_many(cells, n, below(3) % (n * n));
    if (!once_in(4))
        cells[n * n - 1] = random_stated();
    if (once_in(2))
        cells[0] = random_stated();
}

/* As many statements as n regions may have within the limit, or one or two more. */
static void state_to_the_limit(uint8_t *cells, size_t n)
{
    size_t room = CHACHAQOM_SCENE_LIMIT - CHACHAQOM_END_LENGTH - n * CHACHAQOM_REGION_LENGTH;
    size_t count = room / CHACHAQOM_STATEMENT_LENGTH + below(3);

    state_so_many(cells, n, count < n * n ? count : n * n);
}

/* How long the scene is that says all this. */
static size_t length_to_write(const uint8_t *cells, size_t n)
{
    size_t length = n * CHACHAQOM_REGION_LENGTH + CHACHAQOM_END_LENGTH, i;

    for (i = 0; i < n * n; i++)
        if (cells[i] != CHACHAQOM_UNIVERSAL)
            length += CHACHAQOM_STATEMENT_LENGTH;
    return length;
}

/* As long as the scene, a byte or more shorter or longer, empty, or about the limit. */
static size_t choose_room(size_t length)
{
    switch (below(8)) {
    case 0:
        return length - 1;
    case 1:
        return length + 1;
    case 2:
        return below(length);
    case 3:
        return length + below(100);
    case 4:
        return once_in(3) ? 0 : CHACHAQOM_SCENE_LIMIT - below(4);
    default:
        return length;
    }
}

/* An identifier becomes 0 or that of another place; or a cell becomes empty. */
static void damage_given(size_t n)
{
    size_t which = below(3);

    if (which == 0)
        given_identifiers[below(n)] = 0;
    if (which == 1)
        given_identifiers[below(n)] = given_identifiers[below(n)];
    if (which == 2)
        given_cells[below(n * n)] = CHACHAQOM_EMPTY;
}

static size_t size_to_write(void)
{
    return once_in(20) ? 57 + below(8) : random_size();
}

static void give(size_t n)
{
    static state_style *const styles[] = {
        state_some, state_every_cell, state_corners, state_sparsely, state_rectangles,
        state_chain, state_blemishes, state_anything
    };
    size_t damages = once_in(3) ? 1 + below(4) : 0;

    memset(given_cells, CHACHAQOM_UNIVERSAL, sizeof given_cells);
    choose_identifiers(given_identifiers, MOST);
    if (n >= 57 && once_in(2))
        state_to_the_limit(given_cells, n);
    else
        styles[below(COUNT_OF(styles))](given_cells, n);
    while (damages-- > 0)
        damage_given(n);
}

/* Lends what is given, in so many bytes: identifiers, cells, buffer, answer. */
static void lend_given(const size_t *lengths)
{
    uint8_t identifiers[MOST * CHACHAQOM_NUMBER_LENGTH + 1];
    size_t i;

    memset(identifiers, 0, sizeof identifiers);
    for (i = 0; i < MOST * CHACHAQOM_NUMBER_LENGTH; i++)
        identifiers[i] = (uint8_t)(given_identifiers[i / 4] >> (24 - 8 * (i % 4)));
    lend_input(&lent_identifiers, "identifiers", identifiers, lengths[0]);
    lend_input(&lent_cells, "cells", given_cells, lengths[1]);
    lend(&lent_buffer, "buffer", lengths[2]);
    lend(&lent_answer, "answer", lengths[3]);
}

static int compare_given(void)
{
    size_t n = size_to_write(), size = n, lengths[4];

    give(n);
    lengths[0] = n * CHACHAQOM_NUMBER_LENGTH;
    lengths[1] = n * n;
    lengths[2] = choose_room(length_to_write(given_cells, n));
    lengths[3] = CHACHAQOM_ANSWER_LENGTH;
    if (once_in(12))
        size = once_in(2) ? off_by_one(n) : hostile_size(n);
    if (size == MOST && once_in(2)) {
        lengths[0] = size * CHACHAQOM_NUMBER_LENGTH;
        lengths[1] = size * size;
    }
    if (once_in(12)) {
        size_t which = below(3);

        which = which == 2 ? 3 : which;
        lengths[which] = hostile_length(lengths[which]);
    }
    lend_given(lengths);
    return compare_lent(size);
}

struct call write_call = {
    .name = "write",
    .compare = compare_given,
    .answerable = { 0, 1, 2, 3, 6, 7, 10, 12, -1 },
    .counted = "written scenes read back"
};
