/* areas.c: arrays that lie against a page that may not be touched. */
#include "host.h"

#include <signal.h>
#include <sys/mman.h>
#include <unistd.h>

/* A byte that was not lent has been touched, or an input written. */
static void on_fault(int signal_number)
{
    static const char message[] = "host: a call touched a byte that was not lent to it, in: ";

    (void)signal_number;
    if (write(STDOUT_FILENO, message, sizeof message - 1) < 0
        || write(STDOUT_FILENO, checking, strlen(checking)) < 0
        || write(STDOUT_FILENO, "\n", 1) < 0)
        _exit(2);
    _exit(1);
}

static void make_room(struct guarded *area)
{
    size_t page = (size_t)sysconf(_SC_PAGESIZE);
    void *pages = mmap(NULL, page + ROOM + page, PROT_NONE, MAP_PRIVATE | MAP_ANONYMOUS, -1, 0);

    if (ROOM % page != 0 || pages == MAP_FAILED
        || mprotect((uint8_t *)pages + page, ROOM, PROT_READ | PROT_WRITE) != 0) {
        printf("host: no guard pages\n");
        exit(2);
    }
    area->room = (uint8_t *)pages + page;
    signal(SIGSEGV, on_fault);
    signal(SIGBUS, on_fault);
}

static void protect(struct guarded *area, int protection)
{
    if (mprotect(area->room, ROOM, protection) != 0) {
        printf("host: no protection\n");
        exit(2);
    }
}

uint8_t *lend(struct guarded *area, size_t length, int position)
{
    size_t i;

    if (area->room == NULL)
        make_room(area);
    for (i = 0; i < ROOM; i++)
        area->room[i] = (uint8_t)(0xA5 + 7 * i);
    memcpy(area->expected, area->room, ROOM);
    area->start = position == AT_START ? area->room : area->room + ROOM - length;
    area->length = length;
    return length == 0 && position == AT_END_OR_NULL ? NULL : area->start;
}

const uint8_t *lend_input(struct guarded *area, const uint8_t *bytes, size_t length, int position)
{
    uint8_t *start;

    if (area->room != NULL)
        protect(area, PROT_READ | PROT_WRITE);
    start = lend(area, length, position);
    if (length > 0)
        memcpy(area->start, bytes, length);
    memcpy(area->expected, area->room, ROOM);
    if (position != AT_START)
        protect(area, PROT_READ);
    return start;
}

uint8_t *lend_holding(struct guarded *area, const uint8_t *bytes, size_t given, size_t length,
                      int position)
{
    uint8_t *start = lend(area, length, position);

    if (given > 0)
        memcpy(area->start, bytes, given);
    memcpy(area->expected, area->room, ROOM);
    return start;
}

void expect_bytes(struct guarded *area, const uint8_t *bytes, size_t length)
{
    memcpy(area->expected + (area->start - area->room), bytes, length);
}

void expect_zero(struct guarded *area, size_t length)
{
    memset(area->expected + (area->start - area->room), 0, length);
}

void check_area(const struct guarded *area, const char *what)
{
    check(memcmp(area->room, area->expected, ROOM) == 0, what);
}
