/* installed.c: a host of a few lines, built against an installed copy by way of pkg-config. */
#include <chachaqom.h>
#include <chachaqom_text.h>

#include <stdio.h>

/* The two forms of the version agree. */
static int version_right(void)
{
    unsigned major, minor, patch;

    return sscanf(CHACHAQOM_VERSION, "%u.%u.%u", &major, &minor, &patch) == 3
           && 10000 * major + 100 * minor + patch == CHACHAQOM_VERSION_NUMBER;
}

int main(void)
{
    const uint8_t cells[4] = { CHACHAQOM_UNIVERSAL, CHACHAQOM_INSIDE, CHACHAQOM_UNIVERSAL,
                               CHACHAQOM_UNIVERSAL };
    uint8_t first[4], second[4], answer[CHACHAQOM_ANSWER_LENGTH];
    uint32_t number = chachaqom_refine(2, cells, sizeof cells, first, sizeof first,
                                       second, sizeof second, answer, sizeof answer);
    int right = number == CHACHAQOM_ACCEPTED && first[2] == CHACHAQOM_CONTAINS && version_right();
    char words[CHACHAQOM_TEXT_LENGTH];

    chachaqom_set_in_words(first[2], words, sizeof words);
    printf("installed: %s %s\n", right ? "the converse of inside is" : "wrong:", words);
    return right ? 0 : 1;
}
