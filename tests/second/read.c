/* read.c: the second program's reader, record by record. */
#include "inside.h"

size_t find(const struct scene *s, uint32_t identifier)
{
    size_t place = 0;

    while (place < s->count && s->identifier[place] != identifier)
        place++;
    return place;
}

static int too_many(const struct scene *s)
{
    return s->count >= (planted(SECOND_FAULT_SIXTY_FIFTH_REGION_OFF_BY_ONE) ? REGIONS - 1 : REGIONS);
}

/* Takes a region in; the refusal number, or 0. */
static uint32_t take_region(struct scene *s, uint32_t identifier)
{
    if (identifier == 0)
        return 6;
    if (planted(SECOND_FAULT_TOO_MANY_BEFORE_TWICE) && too_many(s))
        return 8;
    if (find(s, identifier) < s->count)
        return 7;
    if (too_many(s))
        return 8;
    s->identifier[s->count] = identifier;
    s->count++;
    return 0;
}

/* Removes what the set lacks from the cell; what removes something leaves the statement's number. */
static void narrow(struct scene *s, size_t i, size_t j, uint8_t set)
{
    int removes = (s->cell[i][j] & ~set) != 0 || planted(SECOND_FAULT_MARK_OF_WHAT_REMOVES_NOTHING);
    size_t number = s->statements;

    s->cell[i][j] &= set;
    if (planted(SECOND_FAULT_MARKS_OVER_ALL_RECORDS))
        number += s->count;
    if (planted(SECOND_FAULT_MARKS_FROM_NONE))
        number--;
    if (planted(SECOND_FAULT_MARK_OF_THE_FIRST) && s->mark[i][j] != 0)
        return;
    if (removes && planted(SECOND_FAULT_MARK_THE_OTHER_WAY))
        s->mark[j][i] = (uint16_t)number;
    else if (removes)
        s->mark[i][j] = (uint16_t)number;
}

/* Takes a statement in; the refusal number, or 0. */
static uint32_t take_statement(struct scene *s, uint32_t a, uint32_t b, uint8_t set)
{
    size_t i = find(s, a), j = find(s, b);

    if (planted(SECOND_FAULT_ONLY_THE_SECOND_DECLARED) && i == s->count)
        i = 0;
    if (planted(SECOND_FAULT_EMPTY_SET_BEFORE_NOT_DECLARED) && set == 0)
        return 10;
    if (i == s->count || j == s->count)
        return 9;
    if (set == 0)
        return 10;
    if (planted(SECOND_FAULT_IDENTIFIER_TAKEN_AS_PLACE)) {
        i = a < s->count ? a : i;
        j = b < s->count ? b : j;
    }
    s->statements++;
    if (planted(SECOND_FAULT_FILED_THE_OTHER_WAY))
        narrow(s, j, i, set);
    else
        narrow(s, i, j, set);
    return 0;
}

/* Judges the End record at the given place. */
static struct outcome judge_end(const struct scene *s, size_t place, size_t length)
{
    size_t leftover = place + !planted(SECOND_FAULT_LEFTOVER_PLACE_OFF_BY_ONE);

    if (planted(SECOND_FAULT_LEFTOVER_BEFORE_NO_REGION) && place + 1 < length)
        return refused(11, leftover, 0, 0, 0);
    if (s->count == 0)
        return refused(1, place, 0, 0, 0);
    if (place + 1 < length)
        return refused(11, leftover, 0, 0, 0);
    return accepted(s->count);
}

/* How many bytes follow each kind; -1 for an unknown one. */
static int body_length(uint8_t kind)
{
    switch (kind) {
    case 1:
        return 4;
    case 2:
        return 9;
    case 3:
        return 0;
    default:
        return -1;
    }
}

static struct outcome read_records(struct scene *s, const uint8_t *bytes, size_t length)
{
    size_t place = 0;

    for (;;) {
        const uint8_t *record = bytes + place;
        uint32_t number;
        int body;

        if (place == length)
            return refused(4, length, 0, 0, 0);
        body = body_length(record[0]);
        if (body < 0)
            return refused(5, place, 0, 0, 0);
        if (length - place - 1 < (size_t)body)
            return refused(4, place, 0, 0, 0);
        if (record[0] == 3)
            return judge_end(s, place, length);
        if (record[0] == 1)
            number = take_region(s, get_number(record + 1));
        else
            number = take_statement(s, get_number(record + 1), get_number(record + 5), record[9]);
        if (number != 0)
            return refused(number, place, 0, 0, 0);
        place += 1 + (size_t)body;
    }
}

/* Whether the lengths are those that are asked for. */
static int lengths_fit(size_t identifiers_length, size_t cells_length, size_t marks_length)
{
    size_t marks = 2 * REGIONS * REGIONS;

    return identifiers_length == 4 * REGIONS && cells_length == REGIONS * REGIONS
           && (planted(SECOND_FAULT_MARKS_OF_ANY_LENGTH) ? marks_length >= marks
                                                         : marks_length == marks);
}

/* Lays the marks out in rows as long as there are regions, two bytes each, the higher one first. */
static void lay_marks(const struct scene *s, uint8_t *marks)
{
    size_t row = planted(SECOND_FAULT_MARKS_IN_ROWS_OF_64) ? REGIONS : s->count, i, j;
    size_t high = planted(SECOND_FAULT_MARKS_LITTLE_ENDIAN) ? 1 : 0;

    for (i = 0; i < s->count; i++)
        for (j = 0; j < s->count; j++) {
            uint8_t *mark = marks + 2 * (i * row + j);

            mark[high] = (uint8_t)(s->mark[i][j] / 256);
            mark[1 - high] = (uint8_t)(s->mark[i][j] % 256);
        }
}

/* Lays out identifiers and cells. */
static void lay_scene(const struct scene *s, uint8_t *identifiers, uint8_t *cells)
{
    size_t i, j;

    for (i = 0; i < s->count; i++) {
        put_number(identifiers + 4 * i, s->identifier[i]);
        for (j = 0; j < s->count; j++)
            cells[i * s->count + j] = s->cell[i][j];
    }
}

static struct outcome read_scene(struct scene *s, const uint8_t *bytes, size_t length)
{
    size_t limit = planted(SECOND_FAULT_SCENE_LIMIT_OFF_BY_ONE) ? SCENE_LENGTH - 1 : SCENE_LENGTH;

    s->count = 0;
    s->statements = 0;
    memset(s->cell, UNIVERSAL, sizeof s->cell);
    memset(s->mark, 0, sizeof s->mark);
    if (length > limit)
        return refused(3, SCENE_LENGTH, 0, 0, 0);
    return read_records(s, bytes, length);
}

/* How many bytes of the marks are cleared before they are laid out: all of them. */
static size_t cleared_marks(const struct scene *s, struct outcome outcome, size_t length)
{
    if (outcome.number != 0 && planted(SECOND_FAULT_MARKS_UNCLEARED))
        return 0;
    if (outcome.number == 0 && planted(SECOND_FAULT_MARKS_LEFT_BEHIND))
        return 2 * s->count * s->count;
    return length;
}

uint32_t second_read(const uint8_t *scene, size_t scene_length,
                     uint8_t *identifiers, size_t identifiers_length,
                     uint8_t *cells, size_t cells_length,
                     uint8_t *marks, size_t marks_length,
                     uint8_t *answer, size_t answer_length)
{
    struct scene s;
    struct outcome outcome;

    if (answer_length != 20)
        return 2;
    if (!lengths_fit(identifiers_length, cells_length, marks_length))
        return put_answer(answer, refused(2, 0, 0, 0, 0));
    outcome = read_scene(&s, scene, scene_length);
    if (outcome.number != 0 && planted(SECOND_FAULT_READING_AREAS_UNCLEARED))
        return put_answer(answer, outcome);
    memset(identifiers, 0, identifiers_length);
    memset(cells, 0, cells_length);
    memset(marks, 0, cleared_marks(&s, outcome, marks_length));
    if (outcome.number == 0) {
        lay_scene(&s, identifiers, cells);
        lay_marks(&s, marks);
    }
    return put_answer(answer, outcome);
}
