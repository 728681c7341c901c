/* sets.c: converses and compositions of the second program, by its own table. */
#include "inside.h"

/* Compositions of disjoint, meet, equal, inside, coveredBy, contains, covers, overlap. */
static const uint8_t table[8][8] = {
    { 255, 155,   1, 155, 155,   1,   1, 155 },
    { 227, 215,   2, 152, 154,   1,   3, 155 },
    {   1,   2,   4,   8,  16,  32,  64, 128 },
    {   1,   1,   8,   8,   8, 255, 155, 155 },
    {   1,   3,  16,   8,  24, 227, 215, 155 },
    { 227, 224,  32, 252, 224,  32,  32, 224 },
    { 227, 226,  64, 152, 212,  32,  96, 224 },
    { 227, 227, 128, 152, 152, 227, 227, 255 }
};

uint8_t converse(uint8_t set)
{
    static const int other[8] = { 0, 1, 2, 5, 6, 3, 4, 7 };
    uint8_t result = 0;
    int r;

    for (r = 0; r < 8; r++)
        if (set & 1 << r)
            result = (uint8_t)(result | 1 << other[r]);
    return result;
}

static uint8_t compose_by_table(int a, int b)
{
    uint8_t result = 0;
    int p, q;

    for (p = 0; p < 8; p++)
        for (q = 0; q < 8; q++)
            if (a & 1 << p && b & 1 << q)
                result |= table[p][q];
    return result;
}

/* The composition of two sets; all of them are worked out at the first call. */
uint8_t compose(uint8_t a, uint8_t b)
{
    static uint8_t known[256][256];
    static int ready;
    int p, q;

    if (!ready)
        for (p = 0; p < 256; p++)
            for (q = 0; q < 256; q++)
                known[p][q] = compose_by_table(p, q);
    ready = 1;
    return known[a][b];
}
