/* A count of checks, for the tests in C: one line for each that fails, and 'N passed, M failed' at the end. */
#ifndef CHECK_H
#define CHECK_H

#include <stdio.h>

static unsigned long passed = 0;
static unsigned long failed = 0;

static void check(int good, const char *what)
{
    if (good) {
        passed++;
    } else {
        failed++;
        printf("FAILED %s\n", what);
    }
}

/* The last line, and the status to end with. */
static int counted(void)
{
    printf("%lu passed, %lu failed\n", passed, failed);
    return failed == 0 && passed > 0 ? 0 : 1;
}

#endif
