/*
 * second.c: the second program: faults, answers and bytes. Its calls do as the rules say, plain and
 * slow, with no thought of speed and no name or line from the library or its header.
 */
#include "inside.h"

int second_fault = SECOND_FAULT_NONE;

#define FAULT_WORDS(name, words) words,

const char *second_fault_name(int fault)
{
    static const char *const names[SECOND_FAULTS] = { "no fault", SECOND_FAULT_LIST(FAULT_WORDS) };

    return names[fault];
}

int planted(int fault)
{
    return second_fault == fault;
}

struct outcome refused(uint32_t number, size_t i, size_t j, size_t k, size_t count)
{
    struct outcome outcome;

    outcome.number = number;
    outcome.places[0] = (uint32_t)i;
    outcome.places[1] = (uint32_t)j;
    outcome.places[2] = (uint32_t)k;
    outcome.count = (uint32_t)count;
    return outcome;
}

struct outcome accepted(size_t count)
{
    return refused(0, 0, 0, 0, count);
}

void put_number(uint8_t *bytes, uint32_t number)
{
    bytes[0] = (uint8_t)(number >> 24);
    bytes[1] = (uint8_t)(number >> 16);
    bytes[2] = (uint8_t)(number >> 8);
    bytes[3] = (uint8_t)number;
}

uint32_t get_number(const uint8_t *bytes)
{
    return (uint32_t)bytes[0] * 16777216u + bytes[1] * 65536u + bytes[2] * 256u + bytes[3];
}

uint32_t put_answer(uint8_t *answer, struct outcome outcome)
{
    put_number(answer, outcome.number);
    put_number(answer + 4, outcome.places[0]);
    put_number(answer + 8, outcome.places[1]);
    put_number(answer + 12, outcome.places[2]);
    put_number(answer + 16, outcome.count);
    return outcome.number;
}

int out_of_range(size_t n)
{
    size_t limit = planted(SECOND_FAULT_REGIONS_LIMIT_OFF_BY_ONE) ? REGIONS - 1 : REGIONS;

    return n < 1 || n > limit;
}
