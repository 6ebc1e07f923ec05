#include "check.h"

#include <stdio.h>

static unsigned passed, failed;

void check(bool holds, const char *name, const char *what)
{
    if (holds) {
        passed++;
        return;
    }
    failed++;
    printf("failed %.33s\n %.39s\n", name, what);
}

int checks_done(void)
{
    printf("%u passed, %u failed\n", passed, failed);
    return failed == 0 ? 0 : 1;
}
