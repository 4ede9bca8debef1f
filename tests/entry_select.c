/* Select: document 01's selections, common objects in rings, the largest state, and lent words. */
#include "calls.h"
#include "check.h"
#include "largest.h"
#include "rings.h"
#include "small.h"
#include <string.h>

static int call_select(const Record *r, Room room)
{
    return bikuvoa_select(r[SCHEMA].at, r[SCHEMA].words, r[QUERY].at, r[QUERY].words, r[STATE].at, r[STATE].words, room.lent,
                          r[LENT].words, room.outs);
}

static void selections(void)
{
    for (int row = 0; row < SELECTIONS; row++) {
        uint64_t out = 99;
        uint16_t flagged[4] = {UNTOUCHED, UNTOUCHED, UNTOUCHED, UNTOUCHED};
        const uint16_t *flags = SELECTED[row].flags;
        Record concept = concept_of(SELECTED[row].tokens);
        check(call(SELECT, ON(schema_x, concept, NONE, state_s, WORDS(4)), flagged, &out) == 0, "select", row);
        check(memcmp(flagged, flags, sizeof SELECTED[row].flags) == 0 && flagged[3] == UNTOUCHED, "flags", row);
        check(out == (uint64_t)flags[0] + flags[1] + flags[2], "selected", row);
    }
}

static void rings(void)
{
    static uint16_t flags[BIKUVOA_MAX_OBJECTS];
    for (int i = 0; i < RINGS; i++) {
        size_t n = RING_OBJECTS[i];
        Record state = ring(n);
        for (size_t pairs = 0; pairs <= MOST_PAIRS; pairs++) {
            uint64_t out = 99;
            int row = (int)(100 * n + pairs);
            check(call(SELECT, ON(one_attribute, own_value(pairs), NONE, state, WORDS(n)), flags, &out) == 0 && out == 1
                      && flags[n - 1] == 1, "the last object's own value", row);
            check(call(SELECT, ON(one_attribute, value_of_value(pairs), NONE, state, WORDS(n)), flags, &out) == 0 && out == 2
                      && flags[n - 1] == 1 && flags[n - 2] == 1, "a value's value", row);
        }
    }
}

static void limits(void)
{
    static uint16_t flags[481];
    bikuvoa_state largest = largest_state(0);
    Record schema = largest_schema(), state = {largest.length, largest.words};
    Record path = concept_of((Tokens)TOKENS(EMPTY, CLASS(23), FORWARD(7), REACHED));
    uint64_t out = 99;
    flags[480] = UNTOUCHED;
    check(call(SELECT, ON(schema, path, NONE, state, WORDS(481)), flags, &out) == 0 && out == 480 && flags[479] == 1
              && flags[480] == UNTOUCHED, "480 objects", 1);
    check(call(SELECT, ON(schema, path, NONE, state, WORDS(480)), flags, &out) == 0, "480 lent words", 2);
    check(call(SELECT, ON(schema, path, NONE, state, WORDS(479)), flags, &out) == 11, "479 lent words", 3);
}

/* Where no words are needed, they may be null. */
static void no_words(void)
{
    uint64_t out = 99;
    check(call(SELECT, ON(no_axioms, everything, NONE, no_objects, NONE), NULL, &out) == 0 && out == 0, "no lent words", 0);
}

static void test_select(void)
{
    selections();
    rings();
    limits();
    no_words();
}

const Entry entry_select = {
    .name = "select",
    .takes = {[SCHEMA] = 1, [QUERY] = 1, [STATE] = 1, [LENT] = 1},
    .lent_words = 3,
    .call = call_select,
    .test = test_select,
};
