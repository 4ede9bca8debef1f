/* Holds: a triple of each verdict, and how many steps its query and its view may have. */
#include "calls.h"
#include "check.h"
#include "rings.h"
#include "small.h"

static int call_holds(const Record *r, Room room)
{
    return bikuvoa_holds(r[SCHEMA].at, r[SCHEMA].words, r[QUERY].at, r[QUERY].words, r[VIEW].at, r[VIEW].words, room.outs);
}

/* The verdicts of decide; what stands beside the out value is not touched. */
static void yes_or_no(void)
{
    const Record x = schema_x;
    uint64_t outs[3] = {97, 98, 99};
    check(bikuvoa_holds(x.at, x.words, person.at, person.words, everything.at, everything.words, outs + 1) == 0
              && outs[1] == 1, "held without a state", 0);
    check(bikuvoa_holds(x.at, x.words, everything.at, everything.words, person.at, person.words, outs + 1) == 0
              && outs[1] == 0, "open without a state", 1);
    check(outs[0] == 97 && outs[2] == 99, "beside the out value", 2);
}

static void steps(void)
{
    Record seven = chain(BIKUVOA_VIEW_STEPS + 1);
    uint64_t held = 99;
    check(call(HOLDS, ON(schema_x, person, seven), NULL, &held) == BIKUVOA_BAD_STEPS && held == 99, "seven steps in a view", 0);
    check(call(HOLDS, ON(schema_x, seven, person), NULL, &held) == 0 && held == 1, "seven steps in a query", 0);
}

static void test_holds(void)
{
    yes_or_no();
    steps();
}

const Entry entry_holds = {
    .name = "holds",
    .takes = {[SCHEMA] = 1, [QUERY] = 1, [VIEW] = 1},
    .takes_marks = 1,
    .call = call_holds,
    .test = test_holds,
};
