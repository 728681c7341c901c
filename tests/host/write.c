/* write.c: checks of chachaqom_write: what is written and read back, every refusal, the limit. */
#include "host.h"

static struct guarded identifiers_area, cells_area, buffer_area;

struct lengths {
    size_t identifiers, cells, buffer, answer;
};

static struct lengths lengths_of(size_t identifiers, size_t cells, size_t buffer, size_t answer)
{
    struct lengths lengths;

    lengths.identifiers = identifiers;
    lengths.cells = cells;
    lengths.buffer = buffer;
    lengths.answer = answer;
    return lengths;
}

static void write_at(int position, size_t n, const uint8_t *identifiers, const uint8_t *cells,
                     struct lengths lengths, struct outcome outcome, const uint8_t *scene)
{
    const uint8_t *names = lend_input(&identifiers_area, identifiers, lengths.identifiers, position);
    const uint8_t *matrix = lend_input(&cells_area, cells, lengths.cells, position);
    uint8_t *buffer = lend(&buffer_area, lengths.buffer, position);
    uint8_t *answer = lend_answer(lengths.answer, position);
    uint32_t returned = chachaqom_write(n, names, lengths.identifiers, matrix, lengths.cells,
                                        buffer, lengths.buffer, answer, lengths.answer);

    if (outcome.number == CHACHAQOM_ACCEPTED)
        expect_bytes(&buffer_area, scene, outcome.count);
    check_answer(returned, outcome);
    check_area(&buffer_area, "buffer, or the bytes around it");
    check_area(&identifiers_area, "identifiers changed");
    check_area(&cells_area, "cells changed");
}

static void write_with(size_t n, const uint8_t *identifiers, const uint8_t *cells,
                       struct lengths lengths, struct outcome outcome, const uint8_t *scene)
{
    int position;

    for (position = 0; position < POSITIONS; position++)
        write_at(position, n, identifiers, cells, lengths, outcome, scene);
}

/* Arrays of the right lengths for n regions, and a buffer of so many bytes. */
static struct lengths with_buffer(size_t n, size_t buffer)
{
    return lengths_of(n * CHACHAQOM_NUMBER_LENGTH, n * n, buffer, CHACHAQOM_ANSWER_LENGTH);
}

/* The marks of what was written: statements in row order, one for each cell that is not 255. */
static const uint8_t *marks_of(size_t n, const uint8_t *cells)
{
    static uint8_t marks[CHACHAQOM_MARKS_LENGTH];
    size_t statements = 0, i;

    for (i = 0; i < n * n; i++) {
        size_t mark = cells[i] == CHACHAQOM_UNIVERSAL ? 0 : ++statements;

        marks[2 * i] = (uint8_t)(mark / 256);
        marks[2 * i + 1] = (uint8_t)(mark % 256);
    }
    return marks;
}

/*
 * The scene is written wherever the buffer is as long or longer, and 12 is answered wherever it is
 * shorter; and it is read back to what was given.
 */
static void write_and_read_back(size_t n, const uint8_t *identifiers, const uint8_t *cells,
                                const uint8_t *scene, size_t length)
{
    const size_t longer[] = { 0, 1, 2, 100 }, shorter[] = { 1, 2, length / 2, length };
    struct outcome written = outcome_of(CHACHAQOM_ACCEPTED, 0, 0, 0, (uint32_t)length);
    struct outcome no_room = outcome_of(CHACHAQOM_NO_ROOM, 0, 0, 0, 0);
    size_t i;

    for (i = 0; i < COUNT_OF(longer); i++)
        write_with(n, identifiers, cells, with_buffer(n, length + longer[i]), written, scene);
    for (i = 0; i < COUNT_OF(shorter); i++)
        write_with(n, identifiers, cells, with_buffer(n, length - shorter[i]), no_room, NULL);
    read_scene(scene, length, outcome_of(CHACHAQOM_ACCEPTED, 0, 0, 0, (uint32_t)n), identifiers,
               cells, marks_of(n, cells));
}

/* The refusal comes whatever the buffer's length is. */
static void write_refused(size_t n, const uint8_t *identifiers, const uint8_t *cells,
                          uint32_t number, uint32_t i, uint32_t j)
{
    static const size_t buffers[] = { 0, 1, 40, CHACHAQOM_SCENE_LIMIT, ROOM };
    size_t k;

    for (k = 0; k < COUNT_OF(buffers); k++)
        write_with(n, identifiers, cells, with_buffer(n, buffers[k]),
                   outcome_of(number, i, j, 0, 0), NULL);
}

struct written_scene {
    const char *name, *scene, *identifiers, *cells; /* the last three in hexadecimal */
};

static const struct written_scene written_scenes[] = {
    { "the example scene, written",
      "01 00000007 01 00000009 01 00000004 02 00000007 00000009 08 02 00000009 00000004 08 03",
      "00000007 00000009 00000004",
      "FF 08 FF FF FF 08 FF FF FF" },
    { "one region, nothing stated", "01 FFFFFFFF 03", "FFFFFFFF", "FF" },
    { "one region towards itself", "01 00000001 02 00000001 00000001 04 03", "00000001", "04" },
    { "a diagonal without equal, and a pair that clashes: nothing is refined",
      "01 00000005 01 00000006 02 00000005 00000005 FB 02 00000005 00000006 08 "
      "02 00000006 00000005 08 03",
      "00000005 00000006", "FB 08 08 FF" },
    { "every cell of two regions, row by row",
      "01 01020304 01 00000001 02 01020304 01020304 FE 02 01020304 00000001 01 "
      "02 00000001 01020304 80 02 00000001 00000001 7F 03",
      "01020304 00000001", "FE 01 80 7F" },
    { "the last cell only", "01 00000002 01 00000001 02 00000001 00000001 04 03",
      "00000002 00000001", "FF FF FF 04" },
    { "a cell below the diagonal before one of a later row above it",
      "01 00000003 01 00000002 01 00000001 02 00000002 00000003 20 02 00000002 00000001 08 "
      "02 00000001 00000003 02 03",
      "00000003 00000002 00000001", "FF FF FF 20 FF 08 02 FF FF" },
    { "identifiers that share bytes, written", "01 00000100 01 00010000 01 01000000 03",
      "00000100 00010000 01000000", "FF FF FF FF FF FF FF FF FF" },
};

static void run_written_scenes(void)
{
    uint8_t scene[80], identifiers[16], cells[16];
    size_t i;

    for (i = 0; i < COUNT_OF(written_scenes); i++) {
        const struct written_scene *s = &written_scenes[i];
        size_t length = from_hex(s->scene, scene);
        size_t n = from_hex(s->identifiers, identifiers) / CHACHAQOM_NUMBER_LENGTH;

        checking = s->name;
        from_hex(s->cells, cells);
        write_and_read_back(n, identifiers, cells, scene, length);
    }
}

struct refused_writing {
    const char *name, *identifiers, *cells;
    uint32_t number, places[2];
};

static const struct refused_writing refused_writings[] = {
    { "identifier 0 alone", "00000000", "FF", 6, { 0, 0 } },
    { "identifier 0 at the last place", "00000001 00000002 00000000", "FF FF FF FF FF FF FF FF FF",
      6, { 2, 0 } },
    { "identifier 0 twice", "00000007 00000000 00000000", "FF FF FF FF FF FF FF FF FF",
      6, { 1, 0 } },
    { "identifier 0 before a repeated one", "00000007 00000000 00000007",
      "FF FF FF FF FF FF FF FF FF", 6, { 1, 0 } },
    { "identifier 0 and an empty cell", "00000007 00000000", "00 FF FF FF", 6, { 1, 0 } },
    { "two regions with one identifier", "00000007 00000007", "FF FF FF FF", 7, { 1, 0 } },
    { "the example's variant, written", "00000007 00000009 00000009",
      "FF 08 FF FF FF 08 FF FF FF", 7, { 2, 0 } },
    { "the first identifier at the last place again", "00000007 00000008 00000007",
      "FF FF FF FF FF FF FF FF FF", 7, { 2, 0 } },
    { "a repeated identifier before 0", "00000007 00000007 00000000",
      "FF FF FF FF FF FF FF FF FF", 7, { 1, 0 } },
    { "two pairs of twins, the later twin of one first", "00000007 00000008 00000008 00000007",
      "FF FF FF FF FF FF FF FF FF FF FF FF FF FF FF FF", 7, { 2, 0 } },
    { "a repeated identifier and an empty cell", "00000007 00000007", "00 FF FF FF", 7, { 1, 0 } },
    { "an empty cell alone", "00000007", "00", 10, { 0, 0 } },
    { "an empty cell on the diagonal", "00000007 00000008", "FF FF FF 00", 10, { 1, 1 } },
    { "an empty cell of row 0, column 2", "00000007 00000008 00000009",
      "FF FF 00 00 FF FF FF FF FF", 10, { 0, 2 } },
    { "an empty cell of row 2, column 0", "00000007 00000008 00000009",
      "FF FF FF FF FF FF 00 00 FF", 10, { 2, 0 } },
    { "two empty cells, the later row in the earlier column", "00000007 00000008 00000009",
      "FF FF FF FF FF 00 00 FF FF", 10, { 1, 2 } },
};

static void run_refused_writings(void)
{
    uint8_t identifiers[16], cells[16];
    size_t i;

    for (i = 0; i < COUNT_OF(refused_writings); i++) {
        const struct refused_writing *w = &refused_writings[i];
        size_t n = from_hex(w->identifiers, identifiers) / CHACHAQOM_NUMBER_LENGTH;

        checking = w->name;
        from_hex(w->cells, cells);
        write_refused(n, identifiers, cells, w->number, w->places[0], w->places[1]);
    }
}

/* ---- writing at the limit ---- */

static uint8_t many_names[CHACHAQOM_IDENTIFIERS_LENGTH], many_cells[CHACHAQOM_CELLS_LENGTH];

/* n regions, their first cells stated, and the scene that says so, in `large`; its length. */
static size_t state_many(uint32_t n, uint32_t statements)
{
    size_t place = 0;
    uint32_t i;

    memset(many_cells, CHACHAQOM_UNIVERSAL, sizeof many_cells);
    for (i = 0; i < n; i++) {
        put_number(many_names + i * CHACHAQOM_NUMBER_LENGTH, 1000 - i);
        place = put_region(place, 1000 - i);
    }
    for (i = 0; i < statements; i++) {
        many_cells[i] = (uint8_t)(1 + i % 254);
        if (place + CHACHAQOM_STATEMENT_LENGTH < sizeof large)
            place = put_statement(place, 1000 - i / n, 1000 - i % n, many_cells[i]);
    }
    large[place] = CHACHAQOM_KIND_END;
    return place + CHACHAQOM_END_LENGTH;
}

/* Lengths are 1 more than a multiple of 5: 32,766 is the longest scene, 32,771 the next. */
static void run_writing_limit(void)
{
    const uint32_t n = CHACHAQOM_REGIONS_LIMIT, limit = CHACHAQOM_SCENE_LIMIT;

    checking = "64 regions of which nothing is stated";
    write_and_read_back(n, many_names, many_cells, large, state_many(n, 0));
    checking = "56 regions, all cells stated";
    write_and_read_back(56, many_names, many_cells, large, state_many(56, 56 * 56));
    checking = "a scene of 32,761 bytes, 64 regions";
    write_and_read_back(n, many_names, many_cells, large, state_many(n, 3244));
    checking = "a scene of 32,766 bytes, 63 regions: the longest that is written";
    write_and_read_back(63, many_names, many_cells, large, state_many(63, 3245));
    checking = "a scene of 32,766 bytes, all cells of 57 regions but one";
    write_and_read_back(57, many_names, many_cells, large, state_many(57, 57 * 57 - 1));
    checking = "a scene that would have 32,771 bytes";
    state_many(n, 3245);
    write_refused(n, many_names, many_cells, CHACHAQOM_TOO_LONG, limit, 0);
    checking = "a scene that would have 32,776 bytes";
    state_many(57, 57 * 57);
    write_refused(57, many_names, many_cells, CHACHAQOM_TOO_LONG, limit, 0);
    checking = "64 regions, all cells stated";
    state_many(n, n * n);
    write_refused(n, many_names, many_cells, CHACHAQOM_TOO_LONG, limit, 0);
    checking = "64 regions, all cells stated and the last one empty";
    many_cells[CHACHAQOM_CELLS_LENGTH - 1] = CHACHAQOM_EMPTY;
    write_refused(n, many_names, many_cells, CHACHAQOM_SET_EMPTY, n - 1, n - 1);
    checking = "64 regions, the last one the first again";
    put_number(many_names + (n - 1) * CHACHAQOM_NUMBER_LENGTH, 1000);
    write_refused(n, many_names, many_cells, CHACHAQOM_IDENTIFIER_TWICE, n - 1, 0);
    checking = "64 regions, the last one without identifier";
    put_number(many_names + (n - 1) * CHACHAQOM_NUMBER_LENGTH, 0);
    write_refused(n, many_names, many_cells, CHACHAQOM_IDENTIFIER_ZERO, n - 1, 0);
}

static void run_writing_sizes(void)
{
    static const size_t sizes[] = {
        0, 65, 66, 256, 257, 258, 320, (size_t)1 << 32, ((size_t)1 << 32) + 2,
        (size_t)1 << 62, ((size_t)1 << 62) + 2, (size_t)1 << 63, SIZE_MAX
    };
    static uint8_t names[65 * CHACHAQOM_NUMBER_LENGTH], cells[65 * 65];
    struct outcome refused = outcome_of(CHACHAQOM_OUT_OF_RANGE, 0, 0, 0, 0);
    size_t i;

    checking = "writing: a size out of range";
    for (i = 0; i < COUNT_OF(sizes); i++) {
        write_with(sizes[i], names, cells, with_buffer(0, 0), refused, NULL);
        write_with(sizes[i], names, cells, with_buffer(2, 100), refused, NULL);
        write_with(sizes[i], names, cells, with_buffer(CHACHAQOM_REGIONS_LIMIT, 0), refused, NULL);
        write_with(sizes[i], names, cells, with_buffer(65, ROOM), refused, NULL);
        write_with(sizes[i], names, cells, lengths_of(5, 3, 9, CHACHAQOM_ANSWER_LENGTH),
                   refused, NULL);
    }
}

static void run_writing_lengths(void)
{
    static const uint8_t names[12] = { 0, 0, 0, 1, 0, 0, 0, 2 }, cells[9] = { 4, 1, 1, 4 };
    const size_t answer = CHACHAQOM_ANSWER_LENGTH;
    const struct lengths wrong[] = {
        lengths_of(7, 4, 100, answer), lengths_of(9, 4, 100, answer),
        lengths_of(4, 4, 100, answer), lengths_of(12, 4, 100, answer),
        lengths_of(8, 3, 100, answer), lengths_of(8, 5, 100, answer),
        lengths_of(2, 4, 100, answer), lengths_of(12, 9, 100, answer),
        lengths_of(0, 4, 100, answer), lengths_of(8, 0, 100, answer),
        lengths_of(0, 0, 100, answer), lengths_of(0, 0, 0, answer),
        lengths_of(7, 4, 0, answer),   lengths_of(8, 4, 100, answer - 1),
        lengths_of(8, 4, 100, answer + 1), lengths_of(8, 4, 100, 0),
        lengths_of(8, 4, 0, answer - 1), lengths_of(0, 0, 0, 0)
    };
    struct outcome refused = outcome_of(CHACHAQOM_WRONG_LENGTH, 0, 0, 0, 0);
    size_t i;

    checking = "writing: a length off by one, of another size, or 0";
    for (i = 0; i < COUNT_OF(wrong); i++)
        write_with(2, names, cells, wrong[i], refused, NULL);
    checking = "writing: an answer of another length comes first";
    write_with(0, names, cells, lengths_of(8, 4, 100, answer - 1), refused, NULL);
    write_with(65, names, cells, lengths_of(7, 3, 100, answer + 1), refused, NULL);
    checking = "writing: a wrong length before an identifier 0 and an empty cell";
    write_with(3, names, cells, lengths_of(12, 8, 100, answer), refused, NULL);
    write_with(3, names, cells, lengths_of(11, 9, 100, answer), refused, NULL);
    checking = "writing: no room, a null buffer too";
    write_with(2, names, cells, with_buffer(2, 0), outcome_of(CHACHAQOM_NO_ROOM, 0, 0, 0, 0), NULL);
}

void check_write(void)
{
    run_written_scenes();
    end_group("written scenes");
    run_refused_writings();
    end_group("refused writings");
    run_writing_limit();
    end_group("writing at the limit");
    run_writing_sizes();
    run_writing_lengths();
    end_group("sizes and lengths of writing's arrays");
}
