/* What the tests share of class facts. */
#ifndef CLASS_FACTS_H
#define CLASS_FACTS_H

#include "bikuvoa.h"

/* By a walk over all facts: the first ones are the class facts, just as many as the state says. */
static int class_facts_are_first(const uint16_t *state)
{
    size_t facts = bikuvoa_facts(state), count = bikuvoa_class_facts(state), i = 0;
    while (i < facts && (bikuvoa_fact_kind(state, i) < BIKUVOA_ATTRIBUTE_KINDS) == (i < count)) i++;
    return i == facts && count <= facts;
}

#endif
