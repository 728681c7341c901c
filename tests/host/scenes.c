/* scenes.c: scenes in hexadecimal, and large ones record by record. */
#include "host.h"

static unsigned digit(char c)
{
    return (unsigned)(c <= '9' ? c - '0' : c - 'A' + 10);
}

size_t from_hex(const char *text, uint8_t *bytes)
{
    size_t length = 0;

    for (; *text != '\0'; text++) {
        if (*text == ' ')
            continue;
        bytes[length++] = (uint8_t)(16 * digit(text[0]) + digit(text[1]));
        text++;
    }
    return length;
}

void put_number(uint8_t *bytes, uint32_t number)
{
    bytes[0] = (uint8_t)(number >> 24);
    bytes[1] = (uint8_t)(number >> 16);
    bytes[2] = (uint8_t)(number >> 8);
    bytes[3] = (uint8_t)number;
}

uint8_t large[CHACHAQOM_SCENE_LIMIT + 10];

size_t put_region(size_t place, uint32_t identifier)
{
    large[place] = CHACHAQOM_KIND_REGION;
    put_number(large + place + 1, identifier);
    return place + CHACHAQOM_REGION_LENGTH;
}

size_t put_statement(size_t place, uint32_t a, uint32_t b, uint8_t set)
{
    large[place] = CHACHAQOM_KIND_STATEMENT;
    put_number(large + place + 1, a);
    put_number(large + place + 5, b);
    large[place + 9] = set;
    return place + CHACHAQOM_STATEMENT_LENGTH;
}
