/* Counterexample: what select and legal say, with classes in place of the marks. */
#include "counterexample.h"
#include "../tests/class_facts.h"
#include "check.h"
#include "facts.h"
#include "legal.h"
#include "marks.h"
#include "part.h"
#include "select.h"

uint16_t check_counterexample(const Words *r, Words state, uint64_t *found)
{
    uint8_t in_query[BIKUVOA_MAX_OBJECTS], in_view[BIKUVOA_MAX_OBJECTS];
    Words without[STATE + 1];
    uint64_t broken, lowest = 0;
    uint16_t returned;
    *found = UNTOUCHED_OUT;
    returned = bikuvoa_counterexample(r[SCHEMA].at, r[SCHEMA].words, r[QUERY].at, r[QUERY].words, r[VIEW].at, r[VIEW].words,
                                      state.at, state.words, found);
    if (returned) {
        CHECK(*found == UNTOUCHED_OUT);
        return returned;
    }
    if (!unmarked(r, state, without)) return 0;
    CHECK(selected(without, without[QUERY], without[STATE], BIKUVOA_MAX_OBJECTS, in_query) == 0);
    CHECK(selected(without, without[VIEW], without[STATE], BIKUVOA_MAX_OBJECTS, in_view) == 0);
    CHECK(broken_axiom(without, without[STATE], &broken) == 0);
    for (size_t i = state.at[BIKUVOA_AT_OBJECTS]; i > 0; i--)
        if (in_query[i - 1] && !in_view[i - 1]) lowest = i;
    CHECK(*found == (broken ? 0 : lowest));
    return 0;
}

/* The refusal of a state beside an accepted query, if alone it has this refusal: the same, but for the facts of marks
 * that the query uses. */
static uint16_t bad_beside(const Words *r, uint16_t alone)
{
    Words without[STATE + 1];
    uint64_t broken;
    unsigned used = used_in(r[QUERY]);
    if (!used || alone == BIKUVOA_BAD_STATE_SHAPE) return alone;
    unmarked(r, r[STATE], without);
    alone = broken_axiom(without, without[STATE], &broken);
    if (alone == BIKUVOA_BAD_FACT) return alone;
    if (!ascend(r[STATE])) return BIKUVOA_BAD_ORDER;
    if (!class_facts_are_first(r[STATE].at)) return BIKUVOA_BAD_CLASS_FACTS;
    if (are_chosen(r[STATE], used)) return alone;
    mark_without_object.times++;
    return BIKUVOA_BAD_CONSTANTS;
}

static void check_states(const Asked *a)
{
    const uint16_t triple = first(a->query, a->view);
    uint64_t found;
    if (!a->state)
        CHECK(check_counterexample(a->r, miscount(a->r[STATE], a->attribute), &found)
              == first(triple, BIKUVOA_BAD_CLASS_FACTS));
    CHECK(check_counterexample(a->r, a->r[STATE], &found) == first(triple, a->query ? 0 : bad_beside(a->r, a->state)));
}

const Part counterexample_part = {check_states, {NULL}};
