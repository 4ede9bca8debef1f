/* Legal, and so the refusals of a state. */
#include "legal.h"
#include "../tests/class_facts.h"
#include "check.h"
#include "constants.h"
#include "facts.h"
#include "part.h"

uint16_t broken_axiom(const Words *r, Words state, uint64_t *broken)
{
    uint16_t returned;
    *broken = UNTOUCHED_OUT;
    returned = bikuvoa_legal(r[SCHEMA].at, r[SCHEMA].words, state.at, state.words, broken);
    CHECK(returned ? *broken == UNTOUCHED_OUT : *broken <= r[SCHEMA].at[BIKUVOA_AT_AXIOMS]);
    if (returned == BIKUVOA_BAD_CLASS_FACTS) CHECK(ascend(state) && !class_facts_are_first(state.at));
    if (returned == 0 || returned == BIKUVOA_BAD_CONSTANTS)
        CHECK(ascend(state) && class_facts_are_first(state.at) && are_names(r[SCHEMA], state) == (returned == 0));
    return returned;
}

static void check_legal(const Asked *a)
{
    uint64_t broken;
    CHECK(!a->schema || a->state == a->schema);
    CHECK(a->schema || a->state == BIKUVOA_BAD_CLASS_FACTS
          || is_among(a->state, BIKUVOA_BAD_STATE_SHAPE, BIKUVOA_BAD_CONSTANTS));
    false_count.times += a->state == BIKUVOA_BAD_CLASS_FACTS;
    if (!a->state) CHECK(broken_axiom(a->r, miscount(a->r[STATE], a->attribute), &broken) == BIKUVOA_BAD_CLASS_FACTS);
}

const Part legal_part = {check_legal, {NULL}};
