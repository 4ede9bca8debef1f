#include "refusals.h"
#include "calls.h"
#include "check.h"
#include "faulty.h"

/* When each place is looked at: the views before any lent words. */
static const int TURN[PLACES] = {0, 1, 2, 3, 5, 7, 4, 6};

void refusals(int entry)
{
    const size_t least = entry_of(entry)->lent_words;
    clear();
    for (int p = 0; p < PLACES; p++)
        for (int n = 0; takes(entry, p) && refusal_of(p, n); n++)
            for (int later = 0; later < 2; later++) {
                Record r[PLACES];
                for (int q = 0; q < PLACES; q++)
                    r[q] = later && TURN[q] > TURN[p] ? faulty_at(q, 0, least) : good_at(q, least);
                r[p] = faulty_at(p, n, least);
                uint64_t outs[2] = {UNTOUCHED_OUT, ~UNTOUCHED_OUT};
                int row = 1000 * entry + 100 * p + 10 * n + later;
                check(call(entry, r, lent, outs) == refusal_of(p, n), "refusal", row);
                check(outs[0] == UNTOUCHED_OUT && outs[1] == ~UNTOUCHED_OUT, "an out value of a refused call", row);
                check(sets_are(UNTOUCHED_SET, UNTOUCHED_SET), "sets of a refused call", row);
                check(untouched_from(0) && order_untouched(), "lent words of a refused call", row);
            }
}

/* Null pointers of length 0 are refused as the empty records that they are, and lent words of length 0 as too few. */
void nulls(int entry)
{
    uint64_t outs[2] = {UNTOUCHED_OUT, ~UNTOUCHED_OUT};
    clear();
    for (int p = 0; p < PLACES; p++) {
        if (!takes(entry, p) || p == ATTRIBUTE) continue;
        Record r[PLACES];
        for (int q = 0; q < PLACES; q++) r[q] = good_at(q, entry_of(entry)->lent_words);
        r[p] = (Record)NONE;
        check(call(entry, r, p == LENT ? NULL : lent, outs) == refusal_of(p, 0), "null", 10 * entry + p);
        check(outs[0] == UNTOUCHED_OUT && outs[1] == ~UNTOUCHED_OUT && unaltered(), "null alters nothing", 10 * entry + p);
    }
}
