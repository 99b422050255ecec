/* Checks that are counted, and the line at their end, for the tests from C. */
#ifndef CHECK_H
#define CHECK_H

#include <stdio.h>

static int passed, failed;

static void expect(int ok, const char *what)
{
    if (ok) {
        passed++;
    } else {
        failed++;
        printf("not so: %s\n", what);
    }
}

/* Prints the counts; the status of the program. */
static int report(const char *name)
{
    printf("%s from C: %d checks passed, %d failed\n", name, passed, failed);
    return failed != 0;
}

#endif
