/*
 * host.c: a host in C, and in C++, that checks the library through its exported calls: the cases
 * of the rules, whole and a few rounds at a time, the example scene, every refusal of reading and of
 * writing, lengths, null arrays, sizes that are none; what is written is read back. Each array lies
 * against a page that may not be touched, once before and once behind it; inputs lie in pages that
 * may only be read; all bytes around an array are compared afterwards.
 */
#include "host.h"

const char *checking = "nothing yet";
static unsigned long checks, failures, group_start;

void check(int holds, const char *what)
{
    checks++;
    if (holds)
        return;
    failures++;
    printf("host: %s: %s\n", checking, what);
}

void end_group(const char *name)
{
    printf("host: %s: %lu checks\n", name, checks - group_start);
    fflush(stdout);
    group_start = checks;
}

int main(void)
{
    check_refine();
    check_prepare();
    check_run();
    check_read();
    check_write();
    printf("host: %lu checks, %lu failed\n", checks, failures);
    return failures == 0 ? 0 : 1;
}
