#include "check.h"
#include <stdio.h>
#include <stdlib.h>

int passed;

void check(int ok, const char *what, int row)
{
    if (!ok) {
        fprintf(stderr, "failed: %s, row %d\n", what, row);
        exit(1);
    }
    passed++;
}
