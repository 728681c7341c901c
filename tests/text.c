/*
 * text.c: checks the words for authors, in C and in C++: every set is told apart and names its
 * relations, every number that a call can answer has a sentence of its own, every letter in a
 * sentence stands for a region that the answer names, and no byte behind the text is written.
 */
#include "chachaqom_text.h"

#include <stdio.h>
#include <stdlib.h>
#include <string.h>

static unsigned long checks, failures;

static void check(int holds, const char *what, unsigned long which)
{
    checks++;
    if (holds)
        return;
    failures++;
    printf("text: %s: %lu\n", what, which);
}

/* ---- sets ---- */

/* The set that words name; relations are found by their names alone. */
static unsigned set_of(const char *words)
{
    static const char *const names[] = { "disjoint", "meet", "equal", "inside",
                                         "coveredBy", "contains", "covers", "overlap" };
    unsigned set = 0, k;

    if (strcmp(words, "any relation") == 0)
        return CHACHAQOM_UNIVERSAL;
    for (k = 0; k < 8; k++) {
        const char *found = strstr(words, names[k]);

        if (found != NULL && strchr(" ", found[strlen(names[k])]) != NULL)
            set |= 1u << k;
    }
    return set;
}

static void check_sets(void)
{
    char text[CHACHAQOM_TEXT_LENGTH];
    unsigned set;

    for (set = 0; set < 256; set++) {
        size_t length = chachaqom_set_in_words((uint8_t)set, text, sizeof text);

        check(length == strlen(text) && length < sizeof text, "length of a set in words", set);
        check(set_of(text) == set, "a set in words", set);
    }
    chachaqom_set_in_words(CHACHAQOM_INSIDE | CHACHAQOM_COVERED_BY, text, sizeof text);
    check(strcmp(text, "inside or coveredBy") == 0, "two relations in words", 24);
    check(strcmp(chachaqom_relation_name(7), "overlap") == 0, "name of relation", 7);
    check(strcmp(chachaqom_relation_name(8), "") == 0, "name of relation", 8);
}

/* ---- sentences ---- */

typedef const char *sentence_function(uint32_t number);

/* How many regions the answer names; the letters of the sentence are the first so many. */
static void check_letters(const char *sentence, unsigned named, uint32_t number)
{
    check((strchr(sentence, 'X') != NULL) <= (named >= 1), "X in a sentence", number);
    check((strchr(sentence, 'Y') != NULL) == (named >= 2), "Y in a sentence", number);
    check((strchr(sentence, 'Z') != NULL) == (named >= 3), "Z in a sentence", number);
}

/* A capital, at most 79 letters, and a mark at the end. */
static void check_sentence(const char *sentence, uint32_t number)
{
    size_t length = strlen(sentence);

    check(length > 10 && length < 80, "length of a sentence", number);
    check(sentence[0] >= 'A' && sentence[0] <= 'W', "start of a sentence", number);
    check(strchr(".?", sentence[length - 1]) != NULL, "end of a sentence", number);
}

struct told {
    uint32_t number;
    unsigned named; /* how many regions a sentence may name */
};

static void check_call(sentence_function *sentence, const struct told *told, size_t count)
{
    const char *otherwise = sentence(2);
    size_t i, j;

    check_sentence(otherwise, 2);
    check(sentence(99) == otherwise || strcmp(sentence(99), otherwise) == 0, "any other number", 99);
    for (i = 0; i < count; i++) {
        check_sentence(sentence(told[i].number), told[i].number);
        check_letters(sentence(told[i].number), told[i].named, told[i].number);
        check(strcmp(sentence(told[i].number), otherwise) != 0, "no sentence", told[i].number);
        for (j = 0; j < i; j++)
            check(strcmp(sentence(told[i].number), sentence(told[j].number)) != 0,
                  "the sentence of another number", told[i].number);
    }
}

static void check_sentences(void)
{
    static const struct told reading[] = { { 0, 0 }, { 1, 0 }, { 3, 0 }, { 4, 0 }, { 5, 0 }, { 6, 0 },
                                           { 7, 1 }, { 8, 0 }, { 9, 0 }, { 10, 0 }, { 11, 0 } };
    static const struct told refining[] = { { 0, 0 }, { 1, 0 }, { 21, 1 }, { 22, 2 }, { 23, 3 },
                                            { 24, 0 }, { 25, 0 } };
    static const struct told writing[] = { { 0, 0 }, { 1, 0 }, { 3, 0 }, { 6, 1 }, { 7, 1 },
                                           { 10, 2 } };

    check_call(chachaqom_read_sentence, reading, sizeof reading / sizeof reading[0]);
    check_call(chachaqom_refine_sentence, refining, sizeof refining / sizeof refining[0]);
    check_call(chachaqom_write_sentence, writing, sizeof writing / sizeof writing[0]);
}

/* ---- numbers in their places, and short texts ---- */

static void check_filled(void)
{
    char text[CHACHAQOM_TEXT_LENGTH];
    size_t length = chachaqom_fill(chachaqom_refine_sentence(CHACHAQOM_PATH), 4294967295u, 0, 10,
                                   text, sizeof text);

    check(strcmp(text, "What is said of 4294967295 and 10 cannot be, seen through 0.") == 0,
          "numbers in a sentence", CHACHAQOM_PATH);
    check(length == strlen(text), "length of a filled sentence", CHACHAQOM_PATH);
    length = chachaqom_fill(chachaqom_refine_sentence(CHACHAQOM_PATH), 4294967295u, 4294967295u,
                            4294967295u, text, sizeof text);
    check(length < sizeof text, "the longest sentence", CHACHAQOM_PATH);
}

/* Cut to every length, each text is the start of the whole one, ended, with nothing behind it. */
static void check_cut(void)
{
    char whole[CHACHAQOM_TEXT_LENGTH], text[CHACHAQOM_TEXT_LENGTH];
    size_t length = chachaqom_fill("X, Y and Z.", 100, 0, 4294967295u, whole, sizeof whole), room;

    check(strcmp(whole, "100, 0 and 4294967295.") == 0, "a filled sentence", 0);
    for (room = 0; room <= length + 1; room++) {
        size_t kept = room == 0 ? 0 : room - 1;

        memset(text, '#', sizeof text);
        check(chachaqom_fill("X, Y and Z.", 100, 0, 4294967295u, text, room) == length,
              "length of what was cut", (unsigned long)room);
        check(memcmp(text, whole, kept) == 0, "what was cut", (unsigned long)room);
        check(room == 0 || text[kept] == '\0', "end of what was cut", (unsigned long)room);
        check(text[room] == '#', "a byte behind the text", (unsigned long)room);
    }
    memset(text, '#', sizeof text);
    check(chachaqom_set_in_words(CHACHAQOM_UNIVERSAL, text, 4) == 12 && strcmp(text, "any") == 0
          && text[4] == '#', "a set that was cut", 4);
}

int main(void)
{
    check_sets();
    check_sentences();
    check_filled();
    check_cut();
    printf("text: %lu checks, %lu failed\n", checks, failures);
    return failures == 0 ? 0 : 1;
}
