/* Counterexample: what it finds in state S. */
#include "calls.h"
#include "check.h"
#include "small.h"

static int call_counterexample(const Record *r, Room room)
{
    return bikuvoa_counterexample(r[SCHEMA].at, r[SCHEMA].words, r[QUERY].at, r[QUERY].words, r[VIEW].at, r[VIEW].words,
                                  r[STATE].at, r[STATE].words, room.outs);
}

static void test_counterexample(void)
{
    uint64_t found = 99;
    check(call(COUNTEREXAMPLE, ON(schema_x, everything, person, state_s), NULL, &found) == 0 && found == 3,
          "the lowest object", 0);
    check(call(COUNTEREXAMPLE, ON(schema_x, person, everything, state_s), NULL, &found) == 0 && found == 0, "no object", 1);
    found = 99;
    check(call(COUNTEREXAMPLE, ON(schema_x_needs, everything, person, state_s), NULL, &found) == 0 && found == 0,
          "an illegal state", 2);
}

const Entry entry_counterexample = {
    .name = "counterexample",
    .takes = {[SCHEMA] = 1, [QUERY] = 1, [VIEW] = 1, [STATE] = 1},
    .takes_marks = 1,
    .call = call_counterexample,
    .test = test_counterexample,
};
