/*
 * relations.h: the table of compositions of two relations, row first, columns in bit order, and the
 * converse of a set, for the refinements in C that the library is measured beside.
 */
#ifndef RELATIONS_H
#define RELATIONS_H

#include "chachaqom.h"

enum { RELATIONS = 8 };

static const uint8_t compositions_of_relations[RELATIONS][RELATIONS] = {
    { 255, 155,   1, 155, 155,   1,   1, 155 },
    { 227, 215,   2, 152, 154,   1,   3, 155 },
    {   1,   2,   4,   8,  16,  32,  64, 128 },
    {   1,   1,   8,   8,   8, 255, 155, 155 },
    {   1,   3,  16,   8,  24, 227, 215, 155 },
    { 227, 224,  32, 252, 224,  32,  32, 224 },
    { 227, 226,  64, 152, 212,  32,  96, 224 },
    { 227, 227, 128, 152, 152, 227, 227, 255 }
};

/* Inside and coveredBy lie two bits below contains and covers. */
static inline uint8_t converse(uint8_t set)
{
    unsigned within = set & (CHACHAQOM_INSIDE | CHACHAQOM_COVERED_BY);
    unsigned around = set & (CHACHAQOM_CONTAINS | CHACHAQOM_COVERS);

    return (uint8_t)((set & ~(within | around)) | within << 2 | around >> 2);
}

#endif
