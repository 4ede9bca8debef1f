/* Select: lent words for all objects of the state, some more, or one too few. */
#include "select.h"
#include "check.h"
#include "facts.h"
#include "part.h"

uint16_t selected(const Words *r, Words concept, Words state, size_t room, uint8_t *in_it)
{
    Words l = lent(LENT, room);
    uint64_t count = UNTOUCHED_OUT, ones = 0;
    uint16_t returned = bikuvoa_select(r[SCHEMA].at, r[SCHEMA].words, concept.at, concept.words, state.at, state.words, l.at,
                                       l.words, &count);
    if (returned) {
        CHECK(count == UNTOUCHED_OUT && untouched(l, 0));
        return returned;
    }
    size_t n = state.at[BIKUVOA_AT_OBJECTS];
    CHECK(n <= room && untouched(l, n));
    for (size_t i = 0; i < n; i++) {
        CHECK(l.at[i] <= 1);
        in_it[i] = l.at[i] != 0;
        ones += l.at[i];
    }
    CHECK(count == ones);
    return 0;
}

static void check_select(const Asked *a)
{
    uint8_t in_query[BIKUVOA_MAX_OBJECTS];
    const Words state = a->r[STATE];
    const size_t said = state.words > BIKUVOA_AT_OBJECTS ? state.at[BIKUVOA_AT_OBJECTS] : 0, objects = a->state ? 0 : said;
    const size_t room = said > 0 && a->rooms % 4 == 0 ? said - 1 : said + a->rooms % 4;
    if (!a->state)
        CHECK(selected(a->r, a->r[QUERY], miscount(state, a->attribute), 0, in_query)
              == first(a->concept, BIKUVOA_BAD_CLASS_FACTS));
    CHECK(selected(a->r, a->r[QUERY], state, room, in_query) == first(first(a->concept, a->state), few_words(room, objects)));
}

const Part select_part = {check_select, {NULL}};
