#include "check.h"
#include <stdio.h>
#include <stdlib.h>

void fail(const char *what, const char *file, int line)
{
    fprintf(stderr, "failed, %s line %d: %s\n", file, line, what);
    abort();
}
