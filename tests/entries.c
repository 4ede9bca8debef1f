/* The entries, called from C through include/bikuvoa.h: the test of each, in its file entry_*.c; every refusal that it has,
 * alone and with later faults beside it; null pointers; and the deepest concepts on the documented stack. What marks do is in
 * marks.c, and which counts of class facts are refused in counted.c. Not proved; it prints how many checks passed. */
#include "check.h"
#include "entry.h"
#include "faulty.h"
#include "refusals.h"
#include "small.h"
#include "stack.h"
#include <stdio.h>

/* Whether the entry before it has the same test, which has then tried both. */
static int is_tested(int entry)
{
    return entry > 0 && entry_of(entry)->test == entry_of(entry - 1)->test;
}

int main(void)
{
    make_small_records();
    make_faulty_records();
    for (int entry = 0; entry < ENTRIES; entry++) {
        if (entry_of(entry)->test && !is_tested(entry)) entry_of(entry)->test();
        refusals(entry);
        nulls(entry);
    }
    stacks();
    printf("entries from C: %d checks passed\n", passed);
    return 0;
}
