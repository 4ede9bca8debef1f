/* Decide, and holds beside it: the words that it takes, or one too few. A view is held by itself. */
#include "../tests/class_facts.h"
#include "check.h"
#include "constants.h"
#include "counterexample.h"
#include "facts.h"
#include "holds.h"
#include "marks.h"
#include "part.h"
#include "select.h"

static Count held = {"held", 0}, opened = {"open", 0}, refused = {"refused", 0};

/* The written state has its class facts first, and counts them: no other count is accepted. It has a fact for each mark that
 * the query uses, and for no other; the object is in the query and outside the view. */
static void check_written(const Words *r, Words written, uint64_t object)
{
    uint8_t in_query[BIKUVOA_MAX_OBJECTS], in_view[BIKUVOA_MAX_OBJECTS];
    Words without[STATE + 1];
    unsigned used = used_in(r[QUERY]), facts = 0;
    uint64_t found;
    CHECK(class_facts_are_first(written.at));
    CHECK(check_counterexample(r, miscount(written, object), &found) == BIKUVOA_BAD_CLASS_FACTS);
    for (size_t i = 0; i < bikuvoa_facts(written.at); i++) facts += bikuvoa_fact_kind(written.at, i) >= BIKUVOA_MARK_KINDS;
    for (size_t k = 0; k < BIKUVOA_MAX_MARKS; k++) facts -= used >> k & 1;
    CHECK(are_chosen(written, used) && facts == 0);
    shared_object.times += share(written, (1u << r[SCHEMA].at[BIKUVOA_AT_CONSTANTS]) - 1) != 0;
    open_with_marks.times += used != 0;
    if (!unmarked(r, written, without)) return;
    CHECK(selected(without, without[QUERY], without[STATE], BIKUVOA_MAX_OBJECTS, in_query) == 0 && in_query[object]);
    CHECK(selected(without, without[VIEW], without[STATE], BIKUVOA_MAX_OBJECTS, in_view) == 0 && !in_view[object]);
}

/* Held: nothing is written, and the input's own state is no counterexample. Open: the written state is one, by the object. */
static uint16_t decided(const Words *r, size_t room)
{
    uint64_t objects = UNTOUCHED_OUT, object = UNTOUCHED_OUT, found;
    Words l = lent(LENT, room);
    uint16_t returned = bikuvoa_decide(r[SCHEMA].at, r[SCHEMA].words, r[QUERY].at, r[QUERY].words, r[VIEW].at, r[VIEW].words,
                                       l.at, l.words, &objects, &object);
    enum bikuvoa_verdict verdict = bikuvoa_verdict_of(returned, &objects);
    check_holds(r, returned, objects);
    if (verdict == BIKUVOA_REFUSED) {
        refused.times++;
        CHECK(objects == UNTOUCHED_OUT && object == UNTOUCHED_OUT && untouched(l, 0));
    } else if (verdict == BIKUVOA_HELD) {
        held.times++;
        CHECK(object == UNTOUCHED_OUT && untouched(l, 0));
        CHECK(check_counterexample(r, r[STATE], &found) != 0 || found == 0);
    } else {
        opened.times++;
        CHECK(objects <= BIKUVOA_MAX_OBJECTS && object < objects && l.at[BIKUVOA_AT_OBJECTS] == objects);
        CHECK(bikuvoa_state_length(l.at) <= l.words && untouched(l, bikuvoa_state_length(l.at)));
        Words written = copied(WRITTEN, l.at, bikuvoa_state_length(l.at));
        CHECK(check_counterexample(r, written, &found) == 0 && 0 < found && found <= object + 1);
        check_written(r, written, object);
    }
    if (verdict != BIKUVOA_REFUSED) check_marks(r, verdict == BIKUVOA_HELD);
    return returned;
}

static void check_held_by_itself(const Words *r)
{
    const Words twice[] = {r[SCHEMA], r[VIEW], r[VIEW], r[STATE]};
    const unsigned long before = opened.times;
    decided(twice, BIKUVOA_DECIDE_WORDS);
    CHECK(opened.times == before);
}

static void check_decide(const Asked *a)
{
    const size_t room = BIKUVOA_DECIDE_WORDS - (a->rooms / 4 % 8 == 0);
    CHECK(decided(a->r, room) == first(first(a->query, a->view), few_words(room, BIKUVOA_DECIDE_WORDS)));
    check_held_by_itself(a->r);
}

const Part decide_part = {check_decide, {&held, &opened, &refused}};
