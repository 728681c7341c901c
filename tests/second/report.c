/* report.c: the second program's report on a scene, line by line. */
#include "inside.h"

#include <stdio.h>

static int size_of(uint8_t set)
{
    int r, size = 0;

    for (r = 0; r < 8; r++)
        size += set >> r & 1;
    return size;
}

/* What became of what was stated of a pair, there and back: given, deduced, narrowed, kept or unknown. */
static char class_of(uint8_t there, uint8_t back, uint8_t refined)
{
    int s = size_of(there & converse(back)), f = size_of(refined);

    if (s == 1)
        return 'O';
    if (f == 1)
        return 'D';
    if (f == 8)
        return 'U';
    return s == f ? 'S' : 'E';
}

static unsigned long identifier_at(const uint8_t *identifiers, uint32_t place)
{
    return get_number(identifiers + 4 * place);
}

/* The mark of a cell, from its two bytes. */
static unsigned mark_at(const uint8_t *marks, size_t cell)
{
    return marks[2 * cell] * 256u + marks[2 * cell + 1];
}

/* A line for each pair of places in row order. */
static size_t report_pairs(char *text, size_t n, const uint8_t *identifiers, const uint8_t *stated,
                           const uint8_t *marks, const uint8_t *refined)
{
    size_t length = 0;
    uint32_t i, j;

    for (i = 0; i < n; i++)
        for (j = i + 1; j < n; j++)
            length += (size_t)sprintf(text + length, "%lu %lu %u %c %u %u\n",
                                      identifier_at(identifiers, i), identifier_at(identifiers, j),
                                      refined[i * n + j],
                                      class_of(stated[i * n + j], stated[j * n + i],
                                               refined[i * n + j]),
                                      mark_at(marks, i * n + j), mark_at(marks, j * n + i));
    return length;
}

/* The regions that a contradiction names: one for 21, two for 22, three for 23. */
static size_t report_contradiction(char *text, uint32_t number, const uint8_t *answer,
                                   const uint8_t *identifiers)
{
    unsigned long named[3] = { 0, 0, 0 };
    uint32_t k;

    for (k = 0; k < number - 20; k++)
        named[k] = identifier_at(identifiers, get_number(answer + 4 + 4 * k));
    return (size_t)sprintf(text, "refused %lu %lu %lu %lu\n", (unsigned long)number,
                           named[0], named[1], named[2]);
}

size_t second_report(const uint8_t *scene, size_t scene_length, char *text)
{
    static uint8_t identifiers[4 * REGIONS], cells[REGIONS * REGIONS];
    static uint8_t marks[2 * REGIONS * REGIONS], first[REGIONS * REGIONS], second[REGIONS * REGIONS];
    uint8_t answer[20];
    uint32_t number = second_read(scene, scene_length, identifiers, sizeof identifiers,
                                  cells, sizeof cells, marks, sizeof marks,
                                  answer, sizeof answer);
    size_t n, length;

    if (number != 0)
        return (size_t)sprintf(text, "refused %lu %lu 0 0\n", (unsigned long)number,
                               (unsigned long)get_number(answer + 4));
    n = get_number(answer + 16);
    number = second_refine(n, cells, n * n, first, n * n, second, n * n, answer, sizeof answer);
    if (number != 0)
        return report_contradiction(text, number, answer, identifiers);
    length = (size_t)sprintf(text, "accepted %lu %lu\n", (unsigned long)n,
                             (unsigned long)get_number(answer + 16));
    return length + report_pairs(text + length, n, identifiers, cells, marks, first);
}
