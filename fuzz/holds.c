/* Holds: decide.c asks it beside each verdict, and other parts ask it alone. */
#include "holds.h"
#include "check.h"

void check_holds(const Words *r, uint16_t decided, uint64_t objects)
{
    uint64_t held = UNTOUCHED_OUT;
    uint16_t returned = bikuvoa_holds(r[SCHEMA].at, r[SCHEMA].words, r[QUERY].at, r[QUERY].words, r[VIEW].at, r[VIEW].words,
                                      &held);
    if (decided == BIKUVOA_FEW_LENT_WORDS)
        CHECK(returned == 0 && held <= 1);
    else
        CHECK(returned == decided && held == (returned ? UNTOUCHED_OUT : objects == 0));
}

uint64_t held_by(Words schema, Words query, Words view)
{
    uint64_t held = UNTOUCHED_OUT;
    CHECK(bikuvoa_holds(schema.at, schema.words, query.at, query.words, view.at, view.words, &held) == 0);
    return held;
}
