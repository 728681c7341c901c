/*
 * expected.c: reads a scene on standard input and prints the report that the second program makes of
 * it. The report program must print the same bytes.
 */
#include "second/second.h"

#include <stdio.h>

int main(void)
{
    static uint8_t scene[65536];
    static char text[SECOND_REPORT_ROOM];
    size_t length = fread(scene, 1, sizeof scene, stdin);
    size_t written = second_report(scene, length, text);

    if (ferror(stdin) || fwrite(text, 1, written, stdout) != written || fflush(stdout) != 0)
        return 2;
    return 0;
}
