#include "facts.h"

Count false_count = {"false count of class facts", 0};
const Part facts_part = {NULL, {&false_count}};

size_t object_of(Words state, size_t kind)
{
    size_t object = BIKUVOA_MAX_OBJECTS, facts = 0;
    for (size_t i = 0; i < bikuvoa_facts(state.at); i++) {
        if (bikuvoa_fact_kind(state.at, i) != kind) continue;
        object = bikuvoa_fact_object(state.at, i);
        facts++;
    }
    return facts == 1 ? object : BIKUVOA_MAX_OBJECTS;
}

int ascend(Words state)
{
    const uint16_t *left = state.at + BIKUVOA_STATE_SIZES, *right = left + bikuvoa_facts(state.at);
    for (size_t i = 1; i < bikuvoa_facts(state.at); i++)
        if (left[i] < left[i - 1] || (left[i] == left[i - 1] && right[i] <= right[i - 1])) return 0;
    return 1;
}

Words miscount(Words state, size_t more)
{
    Words w = copied(MISCOUNTED, state.at, state.words);
    w.at[BIKUVOA_AT_CLASS_FACTS] = (uint16_t)(w.at[BIKUVOA_AT_CLASS_FACTS] + 1 + more % 65535);
    return w;
}
