/* Legal: states that obey the axioms or break one, and states at the limits. */
#include "calls.h"
#include "check.h"
#include "largest.h"
#include "small.h"

static int call_legal(const Record *r, Room room)
{
    return bikuvoa_legal(r[SCHEMA].at, r[SCHEMA].words, r[STATE].at, r[STATE].words, room.outs);
}

/* The last three of document 01's twelve small states. */
static void small_states(void)
{
    uint64_t out = 99;
    check(call(LEGAL, ON(schema_x, NONE, NONE, state_s), NULL, &out) == 0 && out == 0, "legal", 'j');
    check(call(LEGAL, ON(schema_x_needs, NONE, NONE, state_s), NULL, &out) == 0 && out == 3, "legal", 'k');
    check(call(LEGAL, ON(no_axioms, NONE, NONE, no_objects), NULL, &out) == 0 && out == 0, "legal", 'l');
}

static void limits(void)
{
    bikuvoa_state largest = largest_state(0);
    Record schema = largest_schema(), state = {largest.length, largest.words};
    uint64_t out = 99;
    check(state.words == 30771, "the words of the largest state", 0);
    check(call(LEGAL, ON(schema, NONE, NONE, state), NULL, &out) == 0 && out == 0, "legal at the limits", 4);
    largest.words[BIKUVOA_AT_OBJECTS] = 481;
    check(call(LEGAL, ON(schema, NONE, NONE, state), NULL, &out) == 7, "481 objects", 5);
    largest.words[BIKUVOA_AT_OBJECTS] = 480;
    bikuvoa_pair(&largest, 0, 0, 21);
    state.words = largest.length;
    check(call(LEGAL, ON(schema, NONE, NONE, state), NULL, &out) == 7, "15,385 facts", 6);
}

static void test_legal(void)
{
    small_states();
    limits();
}

const Entry entry_legal = {
    .name = "legal",
    .takes = {[SCHEMA] = 1, [STATE] = 1},
    .call = call_legal,
    .test = test_legal,
};
