#include "support/report.h"

#include <stdio.h>

static int passed, failed;

int report_check(const char *name, int holds)
{
    printf("%s %s\n", holds ? "ok    " : "FAILED", name);
    fflush(stdout);
    if (holds)
        passed++;
    else
        failed++;
    return holds;
}

int report_end(void)
{
    printf("%d passed, %d failed\n", passed, failed);
    return failed > 0 || passed == 0;
}
