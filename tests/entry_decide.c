/* Decide: a triple of each verdict, the state that it writes, and the lent words that it takes. */
#include "calls.h"
#include "check.h"
#include "small.h"

static int call_decide(const Record *r, Room room)
{
    return bikuvoa_decide(r[SCHEMA].at, r[SCHEMA].words, r[QUERY].at, r[QUERY].words, r[VIEW].at, r[VIEW].words, room.lent,
                          r[LENT].words, room.outs, room.outs + 1);
}

static void verdicts(void)
{
    const Record x = schema_x;
    uint64_t objects = 99, object = 98, found = 97;
    clear_lent();
    check(bikuvoa_verdict_of(bikuvoa_decide(x.at, x.words, person.at, person.words, everything.at, everything.words, lent,
                                            BIKUVOA_DECIDE_WORDS, &objects, &object), &objects) == BIKUVOA_HELD
              && objects == 0 && object == 98, "held", 0);
    check(untouched_from(0), "lent words of held", 0);
    check(bikuvoa_verdict_of(bikuvoa_decide(x.at, x.words, everything.at, everything.words, person.at, person.words, lent,
                                            BIKUVOA_DECIDE_WORDS, &objects, &object), &objects) == BIKUVOA_OPEN
              && 0 < objects && object < objects && lent[BIKUVOA_AT_OBJECTS] == objects, "open", 1);
    Record written = {bikuvoa_state_length(lent), lent};
    check(call(COUNTEREXAMPLE, ON(x, everything, person, written), NULL, &found) == 0 && found == object + 1, "written", 1);
    check(untouched_from(written.words), "words after the record", 1);
}

/* The least lent words of a verdict, whether it writes a state or not. */
static void least_words(void)
{
    for (int held = 0; held < 2; held++) {
        uint64_t outs[2] = {UNTOUCHED_OUT, UNTOUCHED_OUT};
        Record query = held ? person : everything, view = held ? everything : person;
        clear_lent();
        check(call(DECIDE, ON(schema_x, query, view, NONE, WORDS(30770)), lent, outs) == 11 && outs[0] == UNTOUCHED_OUT
                  && outs[1] == UNTOUCHED_OUT && untouched_from(0), "30,770 lent words", held);
        check(call(DECIDE, ON(schema_x, query, view, NONE, WORDS(30771)), lent, outs) == 0 && (outs[0] == 0) == held,
              "30,771 lent words", held);
    }
}

static void test_decide(void)
{
    verdicts();
    least_words();
}

const Entry entry_decide = {
    .name = "decide",
    .takes = {[SCHEMA] = 1, [QUERY] = 1, [VIEW] = 1, [LENT] = 1},
    .lent_words = BIKUVOA_DECIDE_WORDS,
    .takes_marks = 1,
    .call = call_decide,
    .test = test_decide,
};
