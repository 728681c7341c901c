/* write.c: the second program's writer: all records first, then what is wrong with them. */
#include "inside.h"

/* A scene as it is written; there is room for a statement of every cell, over the limit or not. */
struct written {
    size_t length;
    uint8_t bytes[5 * REGIONS + 10 * REGIONS * REGIONS + 1];
};

static void write_region(struct written *w, uint32_t identifier)
{
    w->bytes[w->length] = 1;
    put_number(w->bytes + w->length + 1, identifier);
    w->length += 5;
}

static void write_statement(struct written *w, uint32_t a, uint32_t b, uint8_t set)
{
    int swapped = planted(SECOND_FAULT_WRITTEN_THE_OTHER_WAY);

    w->bytes[w->length] = 2;
    put_number(w->bytes + w->length + 1, swapped ? b : a);
    put_number(w->bytes + w->length + 5, swapped ? a : b);
    w->bytes[w->length + 9] = set;
    w->length += 10;
}

static int is_stated(const struct scene *s, size_t i, size_t j)
{
    if (planted(SECOND_FAULT_DIAGONAL_LEFT_OUT) && i == j)
        return 0;
    if (planted(SECOND_FAULT_LAST_CELL_LEFT_OUT) && i == s->count - 1 && j == s->count - 1)
        return 0;
    return s->cell[i][j] != UNIVERSAL || planted(SECOND_FAULT_UNIVERSAL_STATED_TOO);
}

static void write_row(struct written *w, const struct scene *s, size_t row)
{
    size_t other;

    for (other = 0; other < s->count; other++) {
        size_t i = row, j = other;

        if (planted(SECOND_FAULT_STATEMENTS_IN_COLUMN_ORDER)) {
            i = other;
            j = row;
        }
        if (is_stated(s, i, j))
            write_statement(w, s->identifier[i], s->identifier[j], s->cell[i][j]);
    }
}

static void write_records(struct written *w, const struct scene *s)
{
    int mixed = planted(SECOND_FAULT_STATEMENTS_BEFORE_REGIONS);
    size_t i;

    w->length = 0;
    for (i = 0; i < s->count; i++) {
        write_region(w, s->identifier[i]);
        if (mixed)
            write_row(w, s, i);
    }
    for (i = 0; i < s->count && !mixed; i++)
        write_row(w, s, i);
    w->bytes[w->length] = 3;
    w->length++;
}

/* The refusal of 6 or of 7, whichever is asked for, at a place; or none. */
static struct outcome judge_place(const struct scene *s, size_t place, int zero, int twice)
{
    size_t first = find(s, s->identifier[place]); /* the place itself, or an earlier twin's */

    if (zero && s->identifier[place] == 0)
        return refused(6, place, 0, 0, 0);
    if (twice && first < place)
        return refused(7, planted(SECOND_FAULT_EARLIER_TWIN_NAMED) ? first : place, 0, 0, 0);
    return accepted(0);
}

static struct outcome judge_places(const struct scene *s, int zero, int twice)
{
    struct outcome outcome = accepted(0);
    size_t place;

    for (place = 0; place < s->count && outcome.number == 0; place++)
        outcome = judge_place(s, place, zero, twice);
    return outcome;
}

static struct outcome judge_identifiers(const struct scene *s)
{
    struct outcome outcome = accepted(0);

    if (planted(SECOND_FAULT_EVERY_ZERO_BEFORE_TWICE))
        outcome = judge_places(s, 1, 0);
    if (planted(SECOND_FAULT_EVERY_TWICE_BEFORE_ZERO))
        outcome = judge_places(s, 0, 1);
    return outcome.number != 0 ? outcome : judge_places(s, 1, 1);
}

static struct outcome judge_cells(const struct scene *s)
{
    size_t a, b;

    for (a = 0; a < s->count; a++)
        for (b = 0; b < s->count; b++) {
            int by_column = planted(SECOND_FAULT_EMPTY_CELL_IN_COLUMN_ORDER);
            size_t i = by_column ? b : a, j = by_column ? a : b;

            if (s->cell[i][j] != 0)
                continue;
            if (planted(SECOND_FAULT_EMPTY_CELL_BY_COLUMN_AND_ROW))
                return refused(10, j, i, 0, 0);
            return refused(10, i, j, 0, 0);
        }
    return accepted(0);
}

static struct outcome judge_room(size_t length, size_t room)
{
    size_t needed = length;

    if (planted(SECOND_FAULT_NO_ROOM_OFF_BY_ONE))
        needed = length + 1;
    if (planted(SECOND_FAULT_NO_ROOM_WITHOUT_THE_END))
        needed = length - 1;
    if (room < needed)
        return refused(12, 0, 0, 0, planted(SECOND_FAULT_NO_ROOM_WITH_THE_LENGTH) ? length : 0);
    return accepted(length);
}

static struct outcome judge_length(const struct scene *s, size_t length, size_t room)
{
    size_t counted = length, limit = SCENE_LENGTH;

    if (planted(SECOND_FAULT_LENGTH_OF_ALL_CELLS))
        counted = 5 * s->count + 10 * s->count * s->count + 1;
    if (planted(SECOND_FAULT_WRITING_LIMIT_A_RECORD_LOWER))
        limit = SCENE_LENGTH - 5;
    if (planted(SECOND_FAULT_NO_ROOM_BEFORE_TOO_LONG) && room < length)
        return judge_room(length, room);
    if (counted > limit)
        return refused(3, SCENE_LENGTH, 0, 0, 0);
    return judge_room(length, room);
}

static struct outcome judge_writing(const struct scene *s, size_t length, size_t room)
{
    struct outcome outcome = accepted(0);

    if (planted(SECOND_FAULT_EMPTY_CELL_BEFORE_IDENTIFIERS))
        outcome = judge_cells(s);
    if (outcome.number == 0)
        outcome = judge_identifiers(s);
    if (outcome.number == 0)
        outcome = judge_cells(s);
    if (outcome.number == 0)
        outcome = judge_length(s, length, room);
    return outcome;
}

/* Lays the scene into the buffer, or nothing after a refusal. */
static void leave_scene(const struct written *w, uint32_t number, uint8_t *buffer, size_t room)
{
    size_t i;

    for (i = 0; i < w->length && i < room; i++)
        if (number == 0 || (number == 12 && planted(SECOND_FAULT_WRITING_WHAT_FITS))
            || (i == 0 && planted(SECOND_FAULT_BYTE_WRITTEN_BEFORE_A_REFUSAL)))
            buffer[i] = w->bytes[i];
    for (; i < room && number == 0 && planted(SECOND_FAULT_BUFFER_CLEARED_BEHIND); i++)
        buffer[i] = 0;
}

static int writing_lengths_wrong(size_t n, size_t identifiers, size_t cells)
{
    return identifiers != 4 * n || cells != n * n;
}

/* Writes what is of the right lengths; the answer. */
static struct outcome write_given(size_t n, const uint8_t *identifiers, const uint8_t *cells,
                                  uint8_t *buffer, size_t room)
{
    struct scene s;
    struct written w;
    struct outcome outcome;
    size_t i, j;

    s.count = n;
    for (i = 0; i < n; i++) {
        s.identifier[i] = get_number(identifiers + 4 * i);
        for (j = 0; j < n; j++)
            s.cell[i][j] = cells[i * n + j];
    }
    write_records(&w, &s);
    outcome = judge_writing(&s, w.length, room);
    leave_scene(&w, outcome.number, buffer, room);
    if (outcome.number == 0 && planted(SECOND_FAULT_REGIONS_ANSWERED_BY_WRITING))
        outcome.count = (uint32_t)n;
    return outcome;
}

uint32_t second_write(size_t n, const uint8_t *identifiers, size_t identifiers_length,
                      const uint8_t *cells, size_t cells_length,
                      uint8_t *buffer, size_t buffer_length,
                      uint8_t *answer, size_t answer_length)
{
    if (answer_length != 20)
        return 2;
    if (planted(SECOND_FAULT_WRITING_REGIONS_TAKEN_AS_A_BYTE))
        n = n % 256;
    if (planted(SECOND_FAULT_WRITING_LENGTH_BEFORE_RANGE)
        && writing_lengths_wrong(n, identifiers_length, cells_length))
        return put_answer(answer, refused(2, 0, 0, 0, 0));
    if (out_of_range(n))
        return put_answer(answer, refused(1, 0, 0, 0, 0));
    if (writing_lengths_wrong(n, identifiers_length, cells_length))
        return put_answer(answer, refused(2, 0, 0, 0, 0));
    return put_answer(answer, write_given(n, identifiers, cells, buffer, buffer_length));
}
