/* What the tests of refusals share: calls whose returned number is known, and that a refused one alters nothing. */
#ifndef REFUSED_H
#define REFUSED_H

#include "calls.h"
#include "check.h"

/* Its lent words and sets are looked at by unaltered, after many calls. */
static void refused(int entry, const Record *r, int number, const char *what, int row)
{
    uint64_t outs[2] = {UNTOUCHED_OUT, ~UNTOUCHED_OUT};
    check(call(entry, r, lent, outs) == number && outs[0] == UNTOUCHED_OUT && outs[1] == ~UNTOUCHED_OUT, what, row);
}

static void accepted(int entry, const Record *r, const char *what, int row)
{
    uint64_t outs[2];
    check(call(entry, r, lent, outs) == 0, what, row);
}

#endif
