/*
 * chachaqom_text.h: words for authors: the names of the relations, a set in words, and a sentence for
 * each refusal. Nothing but words: no function here allocates, prints or calls another library.
 *
 *     char text[CHACHAQOM_TEXT_LENGTH];
 *
 *     chachaqom_set_in_words(first[i * n + j], text, sizeof text);       // "inside or coveredBy"
 *     chachaqom_fill(chachaqom_refine_sentence(number), x, y, z, text, sizeof text);
 *
 * A sentence stands alone and ends with its own mark. X, Y and Z in it are the identifiers of the
 * regions that the answer names first, second and third; chachaqom_fill puts them in. Where a scene
 * was read, the answer names a byte, which the host shows beside the sentence; X in it is the
 * identifier in the refused record, chachaqom_number(scene + byte + 1, 0).
 */
#ifndef CHACHAQOM_TEXT_H
#define CHACHAQOM_TEXT_H

#include "chachaqom.h"

#ifdef __cplusplus
extern "C" {
#endif

enum {
    CHACHAQOM_RELATIONS = 8,    /* bit k of a set, from 0 to 7, is relation k */
    CHACHAQOM_TEXT_LENGTH = 128 /* room for every sentence, filled in, and for every set in words */
};

/* The name of relation k, from 0 to 7: that of the value 1 << k. */
static inline const char *chachaqom_relation_name(size_t k)
{
    static const char *const names[CHACHAQOM_RELATIONS] = {
        "disjoint", "meet", "equal", "inside", "coveredBy", "contains", "covers", "overlap"
    };

    return k < CHACHAQOM_RELATIONS ? names[k] : "";
}

/* Puts a byte into the text where there is room for it and for the end. For the functions below. */
static inline size_t chachaqom_text_byte(char *text, size_t length, size_t place, char byte)
{
    if (place + 1 < length) {
        text[place] = byte;
        text[place + 1] = '\0';
    }
    return place + 1;
}

static inline size_t chachaqom_text_word(char *text, size_t length, size_t place, const char *word)
{
    for (; *word != '\0'; word++)
        place = chachaqom_text_byte(text, length, place, *word);
    return place;
}

static inline size_t chachaqom_text_number(char *text, size_t length, size_t place, uint32_t number)
{
    uint32_t unit = 1;

    while (number / unit > 9)
        unit *= 10;
    for (; unit > 0; unit /= 10)
        place = chachaqom_text_byte(text, length, place, "0123456789"[number / unit % 10]);
    return place;
}

/*
 * Puts a set into words: the names of its relations with "or" between them, "any relation" or "no
 * relation". The text is cut where it is shorter; it always ends with a 0 where its length is not 0.
 * Returns how long the words are, without that 0.
 */
static inline size_t chachaqom_set_in_words(uint8_t set, char *text, size_t length)
{
    const char *between = "";
    size_t place = 0, k;

    if (length > 0)
        text[0] = '\0';
    if (set == CHACHAQOM_EMPTY || set == CHACHAQOM_UNIVERSAL)
        return chachaqom_text_word(text, length, 0,
                                   set == CHACHAQOM_EMPTY ? "no relation" : "any relation");
    for (k = 0; k < CHACHAQOM_RELATIONS; k++)
        if (set >> k & 1) {
            place = chachaqom_text_word(text, length, place, between);
            place = chachaqom_text_word(text, length, place, chachaqom_relation_name(k));
            between = " or ";
        }
    return place;
}

/* Puts the numbers in the place of X, Y and Z. Cuts, ends and returns as chachaqom_set_in_words. */
static inline size_t chachaqom_fill(const char *sentence, uint32_t x, uint32_t y, uint32_t z,
                                    char *text, size_t length)
{
    size_t place = 0;

    if (length > 0)
        text[0] = '\0';
    for (; *sentence != '\0'; sentence++)
        if (*sentence >= 'X' && *sentence <= 'Z')
            place = chachaqom_text_number(text, length, place,
                                          *sentence == 'X' ? x : *sentence == 'Y' ? y : z);
        else
            place = chachaqom_text_byte(text, length, place, *sentence);
    return place;
}

/* What an author is told of an answer of chachaqom_read. */
static inline const char *chachaqom_read_sentence(uint32_t number)
{
    switch (number) {
    case CHACHAQOM_ACCEPTED:
        return "The scene can be read.";
    case CHACHAQOM_OUT_OF_RANGE:
        return "The scene has no region.";
    case CHACHAQOM_TOO_LONG:
        return "The scene is too long: at most 32,768 bytes.";
    case CHACHAQOM_CUT_SHORT:
        return "The file ends in the middle; was it saved whole?";
    case CHACHAQOM_UNKNOWN_KIND:
        return "At this byte stands something this version does not know.";
    case CHACHAQOM_IDENTIFIER_ZERO:
        return "A region has no identifier.";
    case CHACHAQOM_IDENTIFIER_TWICE:
        return "Two regions have the identifier X.";
    case CHACHAQOM_TOO_MANY_REGIONS:
        return "At most 64 regions.";
    case CHACHAQOM_NOT_DECLARED:
        return "This statement speaks of a region that is not declared before it.";
    case CHACHAQOM_SET_EMPTY:
        return "This statement leaves nothing possible.";
    case CHACHAQOM_AFTER_END:
        return "Something stands behind the end of the scene.";
    default: /* 2: a length is wrong, which is the host's mistake */
        return "The scene was not read.";
    }
}

/* What an author is told of an answer of chachaqom_refine, chachaqom_prepare or chachaqom_run. */
static inline const char *chachaqom_refine_sentence(uint32_t number)
{
    switch (number) {
    case CHACHAQOM_ACCEPTED:
        return "The statements fit each other.";
    case CHACHAQOM_OUT_OF_RANGE:
        return "A scene has 1 to 64 regions.";
    case CHACHAQOM_NODE:
        return "What is said of X towards itself cannot be.";
    case CHACHAQOM_ARC:
        return "What is said of X and Y, both ways, cannot be.";
    case CHACHAQOM_PATH: /* the answer names i, k, j */
        return "What is said of X and Z cannot be, seen through Y.";
    case CHACHAQOM_UNFINISHED: /* the answer names an area */
        return "The statements are still being checked.";
    case CHACHAQOM_UNPREPARED: /* the host's mistake: it ran rounds from something else */
        return "The statements cannot be checked from here; start again.";
    default: /* 2: a length is wrong, which is the host's mistake */
        return "The statements were not checked.";
    }
}

/* What an author is told of an answer of chachaqom_write. */
static inline const char *chachaqom_write_sentence(uint32_t number)
{
    switch (number) {
    case CHACHAQOM_ACCEPTED:
        return "The scene can be saved.";
    case CHACHAQOM_OUT_OF_RANGE:
        return "A scene has 1 to 64 regions.";
    case CHACHAQOM_TOO_LONG:
        return "The scene is too long: at most 32,768 bytes.";
    case CHACHAQOM_IDENTIFIER_ZERO:
        return "A region has no identifier.";
    case CHACHAQOM_IDENTIFIER_TWICE:
        return "Two regions have the identifier X.";
    case CHACHAQOM_SET_EMPTY:
        return "What is said of X towards Y leaves nothing possible.";
    default: /* 2 and 12: a length is wrong or the buffer too short, which is the host's mistake */
        return "The scene was not saved.";
    }
}

#ifdef __cplusplus
}
#endif

#endif
