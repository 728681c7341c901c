/* read.c: checks of chachaqom_read: accepted scenes, marks, every refusal, the limit, lengths. */
#include "host.h"

static struct guarded scene_area, identifiers_area, cells_area, marks_area;

struct lengths {
    size_t identifiers, cells, marks, answer;
};

static struct lengths lengths_of(size_t identifiers, size_t cells, size_t marks, size_t answer)
{
    struct lengths lengths;

    lengths.identifiers = identifiers;
    lengths.cells = cells;
    lengths.marks = marks;
    lengths.answer = answer;
    return lengths;
}

/* What is read: identifiers, cells and marks as far as they go. */
struct contents {
    const uint8_t *identifiers, *cells, *marks;
};

static struct contents contents_of(const uint8_t *identifiers, const uint8_t *cells,
                                   const uint8_t *marks)
{
    struct contents contents;

    contents.identifiers = identifiers;
    contents.cells = cells;
    contents.marks = marks;
    return contents;
}

static struct contents nothing(void)
{
    return contents_of(NULL, NULL, NULL);
}

static void expect_read(struct outcome outcome, struct contents contents)
{
    size_t n = outcome.count;

    if (outcome.number != CHACHAQOM_WRONG_LENGTH) {
        expect_zero(&identifiers_area, CHACHAQOM_IDENTIFIERS_LENGTH);
        expect_zero(&cells_area, CHACHAQOM_CELLS_LENGTH);
        expect_zero(&marks_area, CHACHAQOM_MARKS_LENGTH);
    }
    if (outcome.number == CHACHAQOM_ACCEPTED) {
        expect_bytes(&identifiers_area, contents.identifiers, n * CHACHAQOM_NUMBER_LENGTH);
        expect_bytes(&cells_area, contents.cells, n * n);
        expect_bytes(&marks_area, contents.marks, n * n * CHACHAQOM_MARK_LENGTH);
    }
}

/* The inline function takes out each mark that is expected. */
static void check_marks(struct outcome outcome, const uint8_t *expected, const uint8_t *left)
{
    size_t cells = (size_t)outcome.count * outcome.count, k;

    for (k = 0; outcome.number == CHACHAQOM_ACCEPTED && k < cells; k++)
        check(chachaqom_mark(left, k) == expected[2 * k] * 256u + expected[2 * k + 1], "mark");
}

static void read_at(int position, const uint8_t *scene, size_t length, struct lengths lengths,
                    struct outcome outcome, struct contents contents)
{
    const uint8_t *input = lend_input(&scene_area, scene, length, position);
    uint8_t *names = lend(&identifiers_area, lengths.identifiers, position);
    uint8_t *matrix = lend(&cells_area, lengths.cells, position);
    uint8_t *marks = lend(&marks_area, lengths.marks, position);
    uint8_t *answer = lend_answer(lengths.answer, position);
    uint32_t returned = chachaqom_read(input, length, names, lengths.identifiers,
                                       matrix, lengths.cells, marks, lengths.marks,
                                       answer, lengths.answer);

    expect_read(outcome, contents);
    check_answer(returned, outcome);
    check_area(&identifiers_area, "identifiers, or the bytes around them");
    check_area(&cells_area, "cells, or the bytes around them");
    check_area(&marks_area, "marks, or the bytes around them");
    check_marks(outcome, contents.marks, marks);
    check_area(&scene_area, "scene changed");
}

static void read_with(const uint8_t *scene, size_t length, struct lengths lengths,
                      struct outcome outcome, struct contents contents)
{
    int position;

    for (position = 0; position < POSITIONS; position++)
        read_at(position, scene, length, lengths, outcome, contents);
}

void read_scene(const uint8_t *scene, size_t length, struct outcome outcome,
                const uint8_t *identifiers, const uint8_t *cells, const uint8_t *marks)
{
    read_with(scene, length,
              lengths_of(CHACHAQOM_IDENTIFIERS_LENGTH, CHACHAQOM_CELLS_LENGTH,
                         CHACHAQOM_MARKS_LENGTH, CHACHAQOM_ANSWER_LENGTH),
              outcome, contents_of(identifiers, cells, marks));
}

static void read_refused(const uint8_t *scene, size_t length, uint32_t number, uint32_t place)
{
    read_scene(scene, length, outcome_of(number, place, 0, 0, 0), NULL, NULL, NULL);
}

struct accepted_scene {
    const char *name, *scene, *identifiers, *cells, *marks; /* the last four in hexadecimal */
};

static const struct accepted_scene accepted_scenes[] = {
    { "the example scene",
      "01 00000007 01 00000009 01 00000004 02 00000007 00000009 08 02 00000009 00000004 08 03",
      "00000007 00000009 00000004",
      "FF 08 FF FF FF 08 FF FF FF",
      "0000 0001 0000 0000 0000 0002 0000 0000 0000" },
    { "one region", "01 FFFFFFFF 03", "FFFFFFFF", "FF", "0000" },
    { "a statement of a region towards itself", "01 00000001 02 00000001 00000001 FB 03",
      "00000001", "FB", "0001" },
    { "identifiers that look like places of others",
      "01 00000002 01 00000001 01 00000003 02 00000001 00000002 40 02 00000003 00000001 81 03",
      "00000002 00000001 00000003",
      "FF FF FF 40 FF FF FF 81 FF",
      "0000 0000 0000 0001 0000 0000 0000 0002 0000" },
    { "identifiers that share bytes",
      "01 01000000 01 00010000 01 00000100 02 00000100 01000000 03 03",
      "01000000 00010000 00000100",
      "FF FF FF FF FF FF 03 FF FF",
      "0000 0000 0000 0000 0000 0000 0001 0000 0000" },
    { "both directions of a pair, each in its own cell",
      "01 00000005 01 00000006 02 00000005 00000006 18 02 00000006 00000005 21 03",
      "00000005 00000006",
      "FF 18 21 FF",
      "0000 0001 0002 0000" },
    { "statements before a region, and several about one pair",
      "01 00000005 01 00000006 02 00000005 00000006 1C 02 00000005 00000006 98 01 00000007 "
      "02 00000007 00000006 C0 03",
      "00000005 00000006 00000007",
      "FF 18 FF FF FF FF FF C0 FF",
      "0000 0002 0000 0000 0000 0000 0000 0003 0000" },
    { "a statement that removes nothing leaves the mark and has a number",
      "01 00000005 01 00000006 02 00000006 00000006 FF 02 00000005 00000006 18 "
      "02 00000005 00000006 38 01 00000007 02 00000006 00000005 21 02 00000005 00000006 18 03",
      "00000005 00000006 00000007",
      "FF 18 FF 21 FF FF FF FF FF",
      "0000 0002 0000 0004 0000 0000 0000 0000 0000" },
    { "a second statement that removes a relation takes the mark",
      "01 00000005 02 00000005 00000005 1C 02 00000005 00000005 18 02 00000005 00000005 1F 03",
      "00000005", "18", "0002" },
    { "statements that clash leave an empty cell",
      "01 00000005 01 00000006 02 00000005 00000006 08 02 00000005 00000006 10 03",
      "00000005 00000006",
      "FF 00 FF FF",
      "0000 0002 0000 0000" },
};

static void run_accepted_scenes(void)
{
    uint8_t scene[80], identifiers[CHACHAQOM_IDENTIFIERS_LENGTH], cells[16], marks[32];
    size_t i;

    for (i = 0; i < COUNT_OF(accepted_scenes); i++) {
        const struct accepted_scene *s = &accepted_scenes[i];
        size_t length = from_hex(s->scene, scene);
        size_t n = from_hex(s->identifiers, identifiers) / CHACHAQOM_NUMBER_LENGTH;

        checking = s->name;
        from_hex(s->cells, cells);
        from_hex(s->marks, marks);
        read_scene(scene, length, outcome_of(CHACHAQOM_ACCEPTED, 0, 0, 0, (uint32_t)n), identifiers,
                   cells, marks);
    }
}

struct refused_scene {
    const char *name, *scene;
    uint32_t number, place;
};

static const struct refused_scene refused_scenes[] = {
    { "the example's variant: 9 declared twice",
      "01 00000007 01 00000009 01 00000009 02 00000007 00000009 08 02 00000009 00000004 08 03",
      7, 10 },
    { "no region before End", "03", 1, 0 },
    { "no region before End, and bytes behind it", "03 01 00000001 03", 1, 0 },
    { "an empty scene", "", 4, 0 },
    { "no End", "01 00000007", 4, 5 },
    { "no End after a statement", "01 00000007 02 00000007 00000007 04", 4, 15 },
    { "a kind without a body", "01", 4, 0 },
    { "a region without its last byte", "01 00000007 01 000000", 4, 5 },
    { "a statement without its set", "01 00000007 02 00000007 00000007", 4, 5 },
    { "a statement about undeclared regions, cut short", "02 00000001 000000", 4, 0 },
    { "kind 0", "00", 5, 0 },
    { "kind 4", "01 00000007 04 00000000", 5, 5 },
    { "kind 255 after a statement", "01 00000007 02 00000007 00000007 04 FF 03", 5, 15 },
    { "identifier 0 declared first", "01 00000000 03", 6, 0 },
    { "identifier 0 declared twice", "01 00000007 01 00000000 01 00000000 03", 6, 5 },
    { "an identifier declared twice", "01 00000007 01 00000007 03", 7, 5 },
    { "the first identifier declared again", "01 00000007 01 00000008 01 00000009 01 00000007 03",
      7, 15 },
    { "A not declared", "01 00000007 02 00000008 00000007 01 03", 9, 5 },
    { "B not declared", "01 00000007 02 00000007 00000008 01 03", 9, 5 },
    { "A is 0", "01 00000007 02 00000000 00000007 01 03", 9, 5 },
    { "B is 0", "01 00000007 02 00000007 00000000 01 03", 9, 5 },
    { "B declared only later", "01 00000007 02 00000007 00000008 01 01 00000008 03", 9, 5 },
    { "A not declared, the set empty", "01 00000007 02 00000008 00000007 00 03", 9, 5 },
    { "B not declared, the set empty", "01 00000007 02 00000007 00000008 00 03", 9, 5 },
    { "a place is no identifier", "01 00000007 02 00000000 00000001 01 03", 9, 5 },
    { "the empty set stated", "01 00000007 02 00000007 00000007 00 03", 10, 5 },
    { "the empty set stated of a pair",
      "01 00000007 01 00000008 02 00000008 00000007 08 02 00000007 00000008 00", 10, 20 },
    { "one byte after End", "01 00000007 03 00", 11, 6 },
    { "a second End", "01 00000007 02 00000007 00000007 04 03 03", 11, 16 },
    { "a region after End", "01 00000007 03 01 00000008 03", 11, 6 },
};

static void run_refused_scenes(void)
{
    uint8_t scene[80];
    size_t i;

    for (i = 0; i < COUNT_OF(refused_scenes); i++) {
        const struct refused_scene *s = &refused_scenes[i];
        size_t length = from_hex(s->scene, scene);

        checking = s->name;
        read_refused(scene, length, s->number, s->place);
    }
}


/* 64 regions, the identifiers falling from 1,000; the place behind them. */
static size_t put_all_regions(void)
{
    size_t place = 0;
    uint32_t i;

    for (i = 0; i < CHACHAQOM_REGIONS_LIMIT; i++)
        place = put_region(place, 1000 - i);
    return place;
}

static void run_many_regions(void)
{
    static uint8_t identifiers[CHACHAQOM_IDENTIFIERS_LENGTH], cells[CHACHAQOM_CELLS_LENGTH];
    static uint8_t marks[CHACHAQOM_MARKS_LENGTH];
    const uint32_t n = CHACHAQOM_REGIONS_LIMIT, behind = n * CHACHAQOM_REGION_LENGTH;
    size_t place = put_all_regions();
    uint32_t i;

    for (i = 0; i < n; i++)
        put_number(identifiers + i * CHACHAQOM_NUMBER_LENGTH, 1000 - i);
    memset(cells, CHACHAQOM_UNIVERSAL, sizeof cells);
    checking = "64 regions";
    cells[n - 1] = CHACHAQOM_MEET;
    marks[(n - 1) * CHACHAQOM_MARK_LENGTH + 1] = 1;
    large[put_statement(place, 1000, 1000 - 63, CHACHAQOM_MEET)] = CHACHAQOM_KIND_END;
    read_scene(large, place + CHACHAQOM_STATEMENT_LENGTH + 1, outcome_of(CHACHAQOM_ACCEPTED, 0, 0, 0, n),
               identifiers, cells, marks);
    checking = "a 65th region";
    large[put_region(place, 5)] = CHACHAQOM_KIND_END;
    read_refused(large, place + CHACHAQOM_REGION_LENGTH + 1, CHACHAQOM_TOO_MANY_REGIONS, behind);
    checking = "a 65th region that repeats the 64th";
    put_region(place, 1000 - 63);
    read_refused(large, place + CHACHAQOM_REGION_LENGTH + 1, CHACHAQOM_IDENTIFIER_TWICE, behind);
    checking = "a 65th region with identifier 0";
    put_region(place, 0);
    read_refused(large, place + CHACHAQOM_REGION_LENGTH + 1, CHACHAQOM_IDENTIFIER_ZERO, behind);
    checking = "a 65th region after a statement";
    place = put_statement(place, 1000, 999, CHACHAQOM_MEET);
    place = put_region(place, 1001);
    read_refused(large, place, CHACHAQOM_TOO_MANY_REGIONS, behind + CHACHAQOM_STATEMENT_LENGTH);
}

/* One region and 3,276 statements, all but the last alike; the place behind them, 32,765. */
static size_t put_many_statements(void)
{
    size_t place = put_region(0, 7), i;

    for (i = 0; i < 3276; i++)
        place = put_statement(place, 7, 7, (uint8_t)(i < 3275 ? 252 : 207));
    return place;
}

static void run_scene_lengths(void)
{
    static const uint8_t identifier[CHACHAQOM_NUMBER_LENGTH] = { 0, 0, 0, 7 };
    static const uint8_t cell[1] = { 252 & 207 };
    static const uint8_t mark[CHACHAQOM_MARK_LENGTH] = { 3276 / 256, 3276 % 256 };
    const uint32_t limit = CHACHAQOM_SCENE_LIMIT;
    size_t place = put_many_statements();

    large[place] = CHACHAQOM_KIND_END;
    checking = "a scene of 32,766 bytes, the longest that is accepted";
    read_scene(large, limit - 2, outcome_of(CHACHAQOM_ACCEPTED, 0, 0, 0, 1), identifier, cell, mark);
    checking = "a scene of 32,767 bytes";
    read_refused(large, limit - 1, CHACHAQOM_AFTER_END, limit - 2);
    checking = "a scene of 32,768 bytes, with bytes after End";
    read_refused(large, limit, CHACHAQOM_AFTER_END, limit - 2);
    checking = "a scene of 32,768 bytes, its last record cut short";
    large[place] = CHACHAQOM_KIND_STATEMENT;
    read_refused(large, limit, CHACHAQOM_CUT_SHORT, limit - 3);
    checking = "a scene of 32,768 bytes, with an unknown kind";
    large[place] = 0;
    read_refused(large, limit, CHACHAQOM_UNKNOWN_KIND, limit - 3);
    checking = "a scene over 32,768 bytes";
    read_refused(large, limit + 1, CHACHAQOM_TOO_LONG, limit);
    read_refused(large, limit + 2, CHACHAQOM_TOO_LONG, limit);
    large[0] = 0;
    read_refused(large, limit + 1, CHACHAQOM_TOO_LONG, limit);
}

/* Lengths are judged before the scene: it may be whole, empty or too long. */
static void read_with_wrong(struct lengths wrong)
{
    static const uint8_t scene[] = { 1, 0, 0, 0, 7, 3 };
    struct outcome refused = outcome_of(CHACHAQOM_WRONG_LENGTH, 0, 0, 0, 0);

    read_with(scene, sizeof scene, wrong, refused, nothing());
    read_with(scene, 0, wrong, refused, nothing());
    read_with(large, CHACHAQOM_SCENE_LIMIT + 1, wrong, refused, nothing());
}

/* Every other length of the marks, up to twice the right one: 2, and not a byte is touched. */
static void run_every_length_of_marks(void)
{
    static const uint8_t scene[] = { 1, 0, 0, 0, 7, 3 };
    static const uint8_t wrong[CHACHAQOM_ANSWER_LENGTH] = { 0, 0, 0, CHACHAQOM_WRONG_LENGTH };
    static uint8_t areas[3][2 * CHACHAQOM_MARKS_LENGTH], untouched[2 * CHACHAQOM_MARKS_LENGTH];
    uint8_t answer[CHACHAQOM_ANSWER_LENGTH];
    size_t length, k;

    memset(areas, 0xa5, sizeof areas);
    memset(untouched, 0xa5, sizeof untouched);
    for (length = 0; length <= sizeof untouched; length++) {
        if (length == CHACHAQOM_MARKS_LENGTH)
            continue;
        memset(answer, 0x5a, sizeof answer);
        check(chachaqom_read(scene, sizeof scene, areas[0], CHACHAQOM_IDENTIFIERS_LENGTH,
                             areas[1], CHACHAQOM_CELLS_LENGTH, areas[2], length,
                             answer, sizeof answer) == CHACHAQOM_WRONG_LENGTH, "number");
        check(memcmp(answer, wrong, sizeof answer) == 0, "answer");
        for (k = 0; k < COUNT_OF(areas); k++)
            check(memcmp(areas[k], untouched, sizeof untouched) == 0, "an area was touched");
    }
}

static void run_reading_lengths(void)
{
    const size_t identifiers = CHACHAQOM_IDENTIFIERS_LENGTH, cells = CHACHAQOM_CELLS_LENGTH;
    const size_t marks = CHACHAQOM_MARKS_LENGTH, answer = CHACHAQOM_ANSWER_LENGTH;
    const struct lengths wrong[] = {
        lengths_of(identifiers - 1, cells, marks, answer),
        lengths_of(identifiers + 1, cells, marks, answer),
        lengths_of(identifiers, cells - 1, marks, answer),
        lengths_of(identifiers, cells + 1, marks, answer),
        lengths_of(identifiers, cells, marks, answer - 1),
        lengths_of(identifiers, cells, marks, answer + 1),
        lengths_of(0, cells, marks, answer),
        lengths_of(identifiers, 0, marks, answer),
        lengths_of(identifiers, cells, marks, 0),
        lengths_of(identifiers, marks, cells, answer),
        lengths_of(0, 0, 0, 0)
    };
    /* off by a byte or a mark, as many bytes as there are marks, and none */
    const size_t of_marks[] = { 0, 1, 2, marks / 2 - 1, marks / 2, marks / 2 + 1, marks - 2,
                                marks - 1, marks + 1, marks + 2, 2 * marks, ROOM };
    static const uint8_t empty[1] = { 0 };
    size_t i;

    memset(large, 0, sizeof large);
    checking = "reading: a length off by one, or 0";
    for (i = 0; i < COUNT_OF(wrong); i++)
        read_with_wrong(wrong[i]);
    checking = "reading: another length of the marks";
    for (i = 0; i < COUNT_OF(of_marks); i++)
        read_with_wrong(lengths_of(identifiers, cells, of_marks[i], answer));
    checking = "reading: every other length of the marks, up to twice the right one";
    run_every_length_of_marks();
    checking = "reading: an empty scene, a null one too";
    read_refused(empty, 0, CHACHAQOM_CUT_SHORT, 0);
}

void check_read(void)
{
    run_accepted_scenes();
    end_group("accepted scenes");
    run_refused_scenes();
    run_many_regions();
    end_group("refused scenes");
    run_scene_lengths();
    end_group("scenes at the limit");
    run_reading_lengths();
    end_group("lengths of reading's arrays");
}
