/* scenes.c: scenes to read: built at random, then damaged. */
#include "compare.h"

/* The scene that is being built. Bytes that do not fit are dropped. */
uint8_t scene[ROOM];
size_t scene_length;

static void put_byte(uint8_t byte)
{
    if (scene_length < ROOM)
        scene[scene_length++] = byte;
}

static void put_number(uint32_t number)
{
    put_byte((uint8_t)(number >> 24));
    put_byte((uint8_t)(number >> 16));
    put_byte((uint8_t)(number >> 8));
    put_byte((uint8_t)number);
}

static void put_region(uint32_t identifier)
{
    put_byte(CHACHAQOM_KIND_REGION);
    put_number(identifier);
}

static void put_statement(uint32_t a, uint32_t b, uint8_t set)
{
    put_byte(CHACHAQOM_KIND_STATEMENT);
    put_number(a);
    put_number(b);
    put_byte(set);
}

/* Different identifiers: small ones out of order, large ones, or ones that share most bytes. */
void choose_identifiers(uint32_t *identifiers, size_t count)
{
    size_t style = below(4), start = below(3), i;

    for (i = 0; i < count; i++) {
        size_t j = below(i + 1);
        uint32_t number = (uint32_t)(1 + start + i);

        if (style == 1)
            number = UINT32_MAX - number;
        if (style == 2)
            number = number << 24 | (uint32_t)(i / 200 + 1);
        if (style == 3)
            number = number << 16;
        identifiers[i] = number;
        identifiers[i] = identifiers[j];
        identifiers[j] = number;
    }
}

static size_t region_count(void)
{
    if (once_in(8))
        return 63 + below(3);
    return 1 + below(once_in(8) ? 30 : 6);
}

/* Some statements among the regions declared so far. */
static void put_statements(const uint32_t *identifiers, size_t declared, size_t count)
{
    while (count-- > 0) {
        uint8_t set = (uint8_t)(once_in(2) ? few_relations() | 1 : 1 + below(255));

        put_statement(identifiers[below(declared)], identifiers[below(declared)], set);
    }
}

static size_t statement_count(void)
{
    if (once_in(60))
        return 3000 + below(300);
    return below(once_in(10) ? 200 : 8);
}

/* A scene that would be accepted, but for more than 64 regions or too great a length. */
void build_scene(void)
{
    uint32_t identifiers[CHACHAQOM_REGIONS_LIMIT + 2];
    size_t count = region_count(), i;

    scene_length = 0;
    choose_identifiers(identifiers, count);
    for (i = 0; i < count; i++) {
        put_region(identifiers[i]);
        if (once_in(5))
            put_statements(identifiers, i + 1, below(4));
    }
    put_statements(identifiers, count, statement_count());
    put_byte(CHACHAQOM_KIND_END);
}

/* ---- damage ---- */

static size_t starts[ROOM + 1]; /* where each record of the scene starts */
static size_t records;

static size_t record_length(uint8_t kind)
{
    if (kind == CHACHAQOM_KIND_REGION)
        return CHACHAQOM_REGION_LENGTH;
    return kind == CHACHAQOM_KIND_STATEMENT ? CHACHAQOM_STATEMENT_LENGTH : CHACHAQOM_END_LENGTH;
}

static void find_records(void)
{
    size_t place = 0;

    records = 0;
    while (place < scene_length) {
        starts[records++] = place;
        place += record_length(scene[place]);
    }
    starts[records] = scene_length;
}

/* A record of the given kind, else any; the scene has at least one. */
static size_t choose_record(uint8_t kind)
{
    size_t tries;

    for (tries = 0; tries < 20; tries++) {
        size_t record = below(records), length = starts[record + 1] - starts[record];

        if (scene[starts[record]] == kind && length == record_length(kind))
            return record;
    }
    return below(records);
}

static size_t start_of(uint8_t kind)
{
    return starts[choose_record(kind)];
}

/* Replaces `removed` bytes at a place by the given ones. */
static void splice(size_t place, size_t removed, const uint8_t *bytes, size_t added)
{
    static uint8_t rest[ROOM];
    size_t rest_length = scene_length - place - removed, i;

    memcpy(rest, scene + place + removed, rest_length);
    scene_length = place;
    for (i = 0; i < added; i++)
        put_byte(bytes[i]);
    for (i = 0; i < rest_length; i++)
        put_byte(rest[i]);
}

/* Overwrites bytes of a record, as far as it reaches. */
static void overwrite(size_t place, size_t offset, const uint8_t *bytes, size_t length)
{
    size_t i;

    for (i = 0; i < length && place + offset + i < scene_length; i++)
        scene[place + offset + i] = bytes[i];
}

static void flip_a_bit(void)
{
    size_t place = below(scene_length);

    scene[place] = (uint8_t)(scene[place] ^ 1u << below(8));
}

static void change_a_byte(void)
{
    scene[below(scene_length)] = (uint8_t)random_word();
}

static void cut_short(void)
{
    scene_length = once_in(2) ? below(scene_length) : starts[below(records)];
}

static void repeat_a_record(void)
{
    uint8_t copy[CHACHAQOM_STATEMENT_LENGTH];
    size_t record = below(records), length = starts[record + 1] - starts[record];

    memcpy(copy, scene + starts[record], length);
    splice(starts[below(records)], 0, copy, length);
}

static void remove_a_record(void)
{
    size_t record = below(records);

    splice(starts[record], starts[record + 1] - starts[record], NULL, 0);
}

static void swap_two_records(void)
{
    uint8_t copy[CHACHAQOM_STATEMENT_LENGTH];
    size_t record = below(records), length = starts[record + 1] - starts[record];

    memcpy(copy, scene + starts[record], length);
    splice(starts[record], length, NULL, 0);
    find_records();
    splice(starts[below(records + 1)], 0, copy, length);
}

static void plant_an_unknown_kind(void)
{
    scene[starts[below(records)]] = (uint8_t)(once_in(3) ? 0 : 4 + below(252));
}

static void declare_zero(void)
{
    static const uint8_t zero[CHACHAQOM_NUMBER_LENGTH] = { 0, 0, 0, 0 };

    overwrite(start_of(CHACHAQOM_KIND_REGION), 1, zero, sizeof zero);
}

/* Also makes the 65th region a repeated one, where there is one. */
static void declare_twice(void)
{
    uint8_t identifier[CHACHAQOM_NUMBER_LENGTH];
    size_t from = start_of(CHACHAQOM_KIND_REGION), to = start_of(CHACHAQOM_KIND_REGION);

    if (from + CHACHAQOM_REGION_LENGTH > scene_length)
        return;
    memcpy(identifier, scene + from + 1, sizeof identifier);
    overwrite(to, 1, identifier, sizeof identifier);
}

/* A region more behind the others, new or repeated. */
static void declare_one_more(void)
{
    uint8_t region[CHACHAQOM_REGION_LENGTH] = { CHACHAQOM_KIND_REGION, 0, 7, 7, 7 };
    size_t place = starts[records - 1], from = start_of(CHACHAQOM_KIND_REGION);

    if (once_in(2) && from + CHACHAQOM_REGION_LENGTH <= scene_length)
        memcpy(region, scene + from, sizeof region);
    splice(place, 0, region, sizeof region);
}

/* A, B or both become something else or 0, and the set perhaps empty. */
static void speak_of_undeclared(void)
{
    uint8_t number[CHACHAQOM_NUMBER_LENGTH] = { 0, 0, 0, 0 };
    const uint8_t empty = CHACHAQOM_EMPTY;
    size_t place = start_of(CHACHAQOM_KIND_STATEMENT), which = below(3);

    if (once_in(2))
        fill_random(number, sizeof number);
    if (which != 0)
        overwrite(place, 1, number, sizeof number);
    if (which != 1)
        overwrite(place, 1 + sizeof number, number, sizeof number);
    if (once_in(3))
        overwrite(place, CHACHAQOM_STATEMENT_LENGTH - 1, &empty, 1);
}

static void state_the_empty_set(void)
{
    const uint8_t empty = CHACHAQOM_EMPTY;

    overwrite(start_of(CHACHAQOM_KIND_STATEMENT), CHACHAQOM_STATEMENT_LENGTH - 1, &empty, 1);
}

static void add_behind(void)
{
    size_t count = 1 + below(12);

    while (count-- > 0)
        put_byte((uint8_t)(once_in(2) ? 1 + below(3) : below(256)));
}

static void end_early(void)
{
    const uint8_t end = CHACHAQOM_KIND_END;

    splice(once_in(3) ? 0 : starts[below(records)], 0, &end, sizeof end);
}

/* Brings the scene to a length at the limit, by statements before its end or bytes behind it. */
static void grow_to_the_limit(void)
{
    size_t target = CHACHAQOM_SCENE_LIMIT - 2 + below(5), unit = CHACHAQOM_STATEMENT_LENGTH;
    uint8_t statement[CHACHAQOM_STATEMENT_LENGTH];
    size_t from = start_of(CHACHAQOM_KIND_STATEMENT), last = starts[records - 1];
    uint8_t end = scene[last];

    if (from + unit > scene_length || scene[from] != CHACHAQOM_KIND_STATEMENT)
        return;
    memcpy(statement, scene + from, unit);
    for (scene_length = last; scene_length + unit < target;) {
        size_t i;

        for (i = 0; i < unit; i++)
            put_byte(statement[i]);
    }
    put_byte(end);
    while (scene_length < target)
        put_byte((uint8_t)below(4));
}

void damage_scene(void)
{
    static void (*const damages[])(void) = {
        flip_a_bit, change_a_byte, cut_short, repeat_a_record, remove_a_record, swap_two_records,
        plant_an_unknown_kind, declare_zero, declare_twice, declare_one_more, declare_one_more,
        speak_of_undeclared, speak_of_undeclared, state_the_empty_set, add_behind, end_early
    };

    if (scene_length == 0)
        return;
    find_records();
    if (once_in(40))
        grow_to_the_limit();
    else
        damages[below(COUNT_OF(damages))]();
}
