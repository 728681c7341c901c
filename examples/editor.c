/*
 * editor.c: a small host, as an editor of scenes would have it. It reads the scene file that is its
 * argument and refines it, a round at a time, with a line after each call, where an editor would
 * redraw. It prints the relations that are left between each two regions, and which statements of the
 * file narrowed them last, the one from the first region before the one from the second; or it tells
 * the author in a sentence what is wrong and where. A scene that is accepted is saved where a second
 * file is named, as it was stated and in normal form: regions, then statements row by row.
 *
 *     editor SCENE               shows the scene
 *     editor SCENE OUT           and saves it to OUT
 *     editor SCENE OUT OLD NEW   and saves it with region OLD renamed to NEW
 *
 * Saving replaces OUT whole or not at all; OUT may be SCENE. Exit status: 0 accepted, and saved; 1
 * refused, or not saved; 2 not used rightly, or a file or the output that cannot be read or written.
 */
#define _XOPEN_SOURCE 700

#include "chachaqom.h"
#include "chachaqom_text.h"

#include <errno.h>
#include <inttypes.h>
#include <limits.h>
#include <signal.h>
#include <stdio.h>
#include <stdlib.h>
#include <sys/stat.h>
#include <unistd.h>

enum { ACCEPTED, REFUSED, UNUSABLE };

/* One byte more than the limit, so that a longer file is seen to be longer. */
static uint8_t scene[CHACHAQOM_SCENE_LIMIT + 1];
static size_t scene_length;

static size_t regions; /* n, once the scene is read */
static uint8_t identifiers[CHACHAQOM_IDENTIFIERS_LENGTH];
static uint8_t cells[CHACHAQOM_CELLS_LENGTH], marks[CHACHAQOM_MARKS_LENGTH];
static uint8_t first[CHACHAQOM_CELLS_LENGTH], second[CHACHAQOM_CELLS_LENGTH];
static uint8_t answer[CHACHAQOM_ANSWER_LENGTH];
static uint32_t rounds; /* that changed something, of all calls together */

static uint32_t identifier(size_t place)
{
    return chachaqom_number(identifiers, place);
}

/* ---- a scene that is accepted ---- */

/* The statements that narrowed what is said of a pair last, from either side; none are 0. */
static void print_statements(uint32_t there, uint32_t back)
{
    if (there != 0 && back != 0)
        printf(", last narrowed by statements %" PRIu32 " and %" PRIu32, there, back);
    else if (there != 0 || back != 0)
        printf(", last narrowed by statement %" PRIu32, there != 0 ? there : back);
}

/* Both areas hold the network then. */
static void print_network(size_t n)
{
    size_t i, j;

    printf("Accepted: %zu region%s, %" PRIu32 " round%s.\n", n, n == 1 ? "" : "s", rounds,
           rounds == 1 ? "" : "s");
    for (i = 0; i < n; i++)
        for (j = i + 1; j < n; j++) {
            char words[CHACHAQOM_TEXT_LENGTH];

            chachaqom_set_in_words(first[i * n + j], words, sizeof words);
            printf("%" PRIu32 " %s %" PRIu32, identifier(i), words, identifier(j));
            print_statements(chachaqom_mark(marks, i * n + j), chachaqom_mark(marks, j * n + i));
            printf("\n");
        }
}

/* ---- refusals ---- */

/* Says what is wrong, with the identifiers that the sentence names. */
static void print_sentence(const char *sentence, uint32_t x, uint32_t y, uint32_t z)
{
    char words[CHACHAQOM_TEXT_LENGTH];

    chachaqom_fill(sentence, x, y, z, words, sizeof words);
    printf("%s\n", words);
}

/* The identifier of the region that the answer names first, second or third. */
static uint32_t named(size_t which)
{
    uint32_t place = chachaqom_number(answer, CHACHAQOM_ANSWER_PLACES + which);

    return place < regions ? identifier(place) : 0;
}

/* How long the refused record is when none of it is missing. */
static size_t record_length(uint32_t number, uint8_t kind)
{
    if (number == CHACHAQOM_UNKNOWN_KIND)
        return 1;
    if (number == CHACHAQOM_AFTER_END)
        return scene_length;
    if (kind == CHACHAQOM_KIND_REGION)
        return CHACHAQOM_REGION_LENGTH;
    return kind == CHACHAQOM_KIND_STATEMENT ? CHACHAQOM_STATEMENT_LENGTH : CHACHAQOM_END_LENGTH;
}

static void print_refused_record(uint32_t number)
{
    size_t place = chachaqom_number(answer, CHACHAQOM_ANSWER_PLACES), length, i;
    int has_identifier = number == CHACHAQOM_IDENTIFIER_TWICE;

    printf("Refused at byte %zu. ", place);
    print_sentence(chachaqom_read_sentence(number),
                   has_identifier ? chachaqom_number(scene + place + 1, 0) : 0, 0, 0);
    if (number == CHACHAQOM_TOO_LONG || place == scene_length)
        return;
    length = record_length(number, scene[place]);
    if (length > scene_length - place)
        length = scene_length - place;
    printf("Bytes:");
    for (i = 0; i < length; i++)
        printf(" %02X", (unsigned)scene[place + i]);
    printf("\n");
}

/* ---- reading and refining ---- */

/* How many pairs have one relation left: what an editor could draw. */
static void print_known(size_t n, const uint8_t *network)
{
    size_t pairs = 0, known = 0, i, j;

    for (i = 0; i < n; i++)
        for (j = i + 1; j < n; j++) {
            uint8_t set = network[i * n + j];

            pairs++;
            known += (set & (set - 1)) == 0;
        }
    printf("%zu of %zu pair%s known.\n", known, pairs, pairs == 1 ? "" : "s");
}

/* Makes round after round, each in a call of its own; the last call's number. */
static uint32_t run_rounds(size_t n)
{
    uint32_t area = CHACHAQOM_FIRST_AREA, number;

    for (;;) {
        number = chachaqom_run(n, area, 1, first, sizeof first, second, sizeof second,
                               answer, sizeof answer);
        rounds += chachaqom_number(answer, CHACHAQOM_ANSWER_COUNT);
        if (number != CHACHAQOM_UNFINISHED)
            return number;
        area = chachaqom_number(answer, CHACHAQOM_ANSWER_PLACES);
        printf("Round %" PRIu32 ": ", rounds);
        print_known(n, area == CHACHAQOM_SECOND_AREA ? second : first);
    }
}

static uint32_t refine(size_t n)
{
    uint32_t number = chachaqom_prepare(n, cells, n * n, first, sizeof first, second, sizeof second,
                                        answer, sizeof answer);

    if (number != CHACHAQOM_ACCEPTED)
        return number;
    printf("Prepared: ");
    print_known(n, first);
    return run_rounds(n);
}

static int show_scene(void)
{
    uint32_t number = chachaqom_read(scene, scene_length, identifiers, sizeof identifiers,
                                     cells, sizeof cells, marks, sizeof marks,
                                     answer, sizeof answer);
    size_t n = chachaqom_number(answer, CHACHAQOM_ANSWER_COUNT);

    if (number != CHACHAQOM_ACCEPTED) {
        print_refused_record(number);
        return REFUSED;
    }
    regions = n;
    number = refine(n);
    if (number != CHACHAQOM_ACCEPTED) {
        printf("Refused. ");
        print_sentence(chachaqom_refine_sentence(number), named(0), named(1), named(2));
        return REFUSED;
    }
    print_network(n);
    return ACCEPTED;
}

/* ---- saving ---- */

/* The mode that a file of this name has, or a new one would have; false for what is no file. */
static int mode_of(const char *name, mode_t *mode)
{
    struct stat found;
    mode_t mask = umask(0);

    umask(mask);
    *mode = 0666 & ~mask;
    if (stat(name, &found) != 0)
        return 1;
    *mode = found.st_mode & 07777;
    return S_ISREG(found.st_mode);
}

static int put_all(int file, const uint8_t *bytes, size_t length)
{
    while (length > 0) {
        ssize_t written = write(file, bytes, length);

        if (written < 0 && errno != EINTR)
            return 0;
        if (written > 0) {
            bytes += written;
            length -= (size_t)written;
        }
    }
    return 1;
}

/* Writes the bytes, waits until they are on the device, and closes the file. */
static int fill_file(int file, const uint8_t *bytes, size_t length, mode_t mode)
{
    int whole = put_all(file, bytes, length) && fchmod(file, mode) == 0 && fsync(file) == 0;
    int error = errno;

    if (close(file) != 0)
        return 0;
    errno = error;
    return whole;
}

/*
 * Replaces the file by one with these bytes. They go to a new file beside it, which takes its name
 * once it is whole: whatever fails before that leaves the old file byte for byte.
 */
static int store(const char *name, const uint8_t *bytes, size_t length)
{
    char beside[PATH_MAX];
    mode_t mode;
    int file, error;

    if (!mode_of(name, &mode)
        || snprintf(beside, sizeof beside, "%s.XXXXXX", name) >= (int)sizeof beside) {
        errno = EINVAL;
        return 0;
    }
    file = mkstemp(beside);
    if (file < 0)
        return 0;
    if (fill_file(file, bytes, length, mode) && rename(beside, name) == 0)
        return 1;
    error = errno;
    unlink(beside);
    errno = error;
    return 0;
}

/* The path of the file itself where the name is a link, so that the link stays one. */
static const char *behind_links(const char *name)
{
    static char path[PATH_MAX];

    return realpath(name, path) != NULL ? path : name;
}

/* The scene is written before any file is opened: one that is refused leaves the file as it was. */
static int save(const char *name)
{
    static uint8_t buffer[CHACHAQOM_SCENE_LIMIT];
    size_t n = regions, length;
    uint32_t number = chachaqom_write(n, identifiers, n * CHACHAQOM_NUMBER_LENGTH, cells, n * n,
                                      buffer, sizeof buffer, answer, sizeof answer);

    if (number != CHACHAQOM_ACCEPTED) {
        printf("Not saved. ");
        print_sentence(chachaqom_write_sentence(number), named(0), named(1), named(2));
        return REFUSED;
    }
    length = chachaqom_number(answer, CHACHAQOM_ANSWER_COUNT);
    if (!store(behind_links(name), buffer, length)) {
        perror(name);
        return UNUSABLE;
    }
    printf("Saved: %zu bytes.\n", length);
    return ACCEPTED;
}

/* ---- renaming ---- */

static int parse_identifier(const char *word, uint32_t *number)
{
    unsigned long long value;
    char *end;

    if (*word < '0' || *word > '9')
        return 0;
    value = strtoull(word, &end, 10);
    *number = (uint32_t)value;
    return *end == '\0' && value <= UINT32_MAX;
}

/* Gives a region another identifier, any at all: that it will do is seen when it is saved. */
static int rename_region(const char *from, const char *to)
{
    uint32_t old_identifier, new_identifier;
    size_t place = 0, k;
    uint8_t *bytes;

    if (!parse_identifier(from, &old_identifier) || !parse_identifier(to, &new_identifier))
        return 0;
    while (place < regions && identifier(place) != old_identifier)
        place++;
    if (place == regions)
        return 0;
    bytes = identifiers + place * CHACHAQOM_NUMBER_LENGTH;
    for (k = 0; k < CHACHAQOM_NUMBER_LENGTH; k++)
        bytes[k] = (uint8_t)(new_identifier >> (24 - 8 * k));
    return 1;
}

/* ---- the program ---- */

static int load(const char *name)
{
    FILE *file = fopen(name, "rb");
    int failed;

    if (file == NULL)
        return 0;
    scene_length = fread(scene, 1, sizeof scene, file);
    failed = ferror(file);
    fclose(file);
    return !failed;
}

/* Shows the scene, and saves it where a name is given, with a region renamed where two are. */
static int edit(int argc, char **argv)
{
    int status;

    if (!load(argv[1])) {
        perror(argv[1]);
        return UNUSABLE;
    }
    status = show_scene();
    if (status != ACCEPTED || argc == 2)
        return status;
    if (argc == 5 && !rename_region(argv[3], argv[4])) {
        fprintf(stderr, "editor: region %s cannot be renamed to %s\n", argv[3], argv[4]);
        return UNUSABLE;
    }
    return save(argv[2]);
}

int main(int argc, char **argv)
{
    int status;

    if (argc != 2 && argc != 3 && argc != 5) {
        fprintf(stderr, "usage: editor SCENE [OUT [OLD NEW]]\n");
        return UNUSABLE;
    }
    signal(SIGXFSZ, SIG_IGN); /* a file that gets too long is then an error like any other */
    status = edit(argc, argv);
    if (fflush(stdout) != 0 || ferror(stdout)) {
        perror("editor: standard output");
        return UNUSABLE;
    }
    return status;
}
