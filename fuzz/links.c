/* Links by first and by second: mostly of an attribute that the schema may declare. */
#include "check.h"
#include "facts.h"
#include "part.h"
#include "select.h"

static Count linked = {"links", 0}, undeclared = {"attribute not declared", 0};

/* Both counts are that of the attribute's facts whose first object is selected by select. */
static uint16_t counted(const Words *r, Words state, uint16_t attribute)
{
    uint8_t in_query[BIKUVOA_MAX_OBJECTS];
    uint64_t by_first = UNTOUCHED_OUT, by_second = UNTOUCHED_OUT, links = 0;
    uint16_t returned = bikuvoa_links_by_first(r[SCHEMA].at, r[SCHEMA].words, r[QUERY].at, r[QUERY].words, state.at,
                                               state.words, attribute, &by_first);
    CHECK(bikuvoa_links_by_second(r[SCHEMA].at, r[SCHEMA].words, r[QUERY].at, r[QUERY].words, state.at, state.words,
                                  attribute, &by_second) == returned);
    CHECK(by_second == by_first);
    if (returned) {
        CHECK(by_first == UNTOUCHED_OUT);
        undeclared.times += returned == BIKUVOA_BAD_ATTRIBUTE;
        return returned;
    }
    CHECK(selected(r, r[QUERY], state, BIKUVOA_MAX_OBJECTS, in_query) == 0);
    for (size_t i = 0; i < bikuvoa_facts(state.at); i++)
        if (bikuvoa_fact_kind(state.at, i) == BIKUVOA_ATTRIBUTE_KINDS + (size_t)attribute)
            links += in_query[bikuvoa_fact_object(state.at, i)];
    CHECK(by_first == links);
    linked.times += links > 0;
    return 0;
}

static uint16_t bad_attribute(size_t attribute, size_t attributes)
{
    return attribute < attributes ? 0 : BIKUVOA_BAD_ATTRIBUTE;
}

static void check_links(const Asked *a)
{
    const size_t attributes = a->schema ? 0 : a->r[SCHEMA].at[BIKUVOA_AT_ATTRIBUTES];
    if (!a->state)
        CHECK(counted(a->r, miscount(a->r[STATE], a->attribute), a->attribute) == first(a->concept, BIKUVOA_BAD_CLASS_FACTS));
    CHECK(counted(a->r, a->r[STATE], a->attribute)
          == first(first(a->concept, a->state), bad_attribute(a->attribute, attributes)));
}

const Part links_part = {check_links, {&linked, &undeclared}};
