#include "marks.h"
#include "check.h"
#include "facts.h"
#include "holds.h"
#include <string.h>

static Count held_by_one_mark = {"held by one mark", 0};
Count open_with_marks = {"open with marks", 0}, mark_without_object = {"mark without an object", 0};
const Part marks_part = {NULL, {&open_with_marks, &held_by_one_mark, &mark_without_object}};

unsigned used_in(Words concept)
{
    size_t n = concept.at[BIKUVOA_AT_TOKENS];
    unsigned used = 0;
    for (size_t i = BIKUVOA_CONCEPT_SIZES; i < BIKUVOA_CONCEPT_SIZES + n; i++)
        if (concept.at[i] == BIKUVOA_MARK) used |= 1u << concept.at[i + n];
    return used;
}

int are_chosen(Words state, unsigned marks)
{
    for (size_t k = 0; marks >> k; k++)
        if ((marks >> k & 1) && object_of(state, BIKUVOA_MARK_KINDS + k) == BIKUVOA_MAX_OBJECTS) return 0;
    return 1;
}

/* The query with other tokens in place of its marks: classes or constants from that number on, or everything. */
static Words replaced(Words query, uint16_t sort, size_t from)
{
    Words w = copied(UNMARKED + QUERY, query.at, query.words);
    size_t n = w.at[BIKUVOA_AT_TOKENS];
    for (size_t i = BIKUVOA_CONCEPT_SIZES; i < BIKUVOA_CONCEPT_SIZES + n; i++) {
        if (w.at[i] != BIKUVOA_MARK) continue;
        w.at[i] = sort;
        w.at[i + n] = sort == BIKUVOA_EVERYTHING ? 0 : (uint16_t)(w.at[i + n] + from);
    }
    return w;
}

/* The state with members of classes, from that number on, in place of the objects of these marks. A fact of a class that is not
 * declared gets a kind that never is. */
static Words with_members(Words state, unsigned marks, size_t declared, size_t from)
{
    static uint16_t words[BIKUVOA_MAX_STATE_WORDS];
    bikuvoa_state s = bikuvoa_start_state(words, BIKUVOA_MAX_STATE_WORDS, state.at[BIKUVOA_AT_OBJECTS]);
    for (size_t i = 0; i < bikuvoa_facts(state.at); i++) {
        size_t kind = bikuvoa_fact_kind(state.at, i), object = bikuvoa_fact_object(state.at, i);
        size_t second = bikuvoa_fact_second(state.at, i), k = kind - BIKUVOA_MARK_KINDS;
        if (kind >= BIKUVOA_MARK_KINDS && kind < BIKUVOA_FACT_KINDS && (marks >> k & 1)) kind = from + k;
        else if (kind >= declared && kind < BIKUVOA_ATTRIBUTE_KINDS) kind = BIKUVOA_FACT_KINDS;
        bikuvoa_fact(&s, kind * BIKUVOA_OBJECT_PART + object, second);
    }
    return copied(UNMARKED + STATE, s.words, s.length);
}

int unmarked(const Words *r, Words state, Words *without)
{
    unsigned used = used_in(r[QUERY]);
    size_t classes = r[SCHEMA].at[BIKUVOA_AT_CLASSES];
    int room = classes + BIKUVOA_MAX_MARKS <= BIKUVOA_MAX_CLASSES;
    memcpy(without, r, STATE * sizeof *without);
    without[STATE] = state;
    if (!used) return 1;
    if (room) {
        without[SCHEMA] = copied(UNMARKED + SCHEMA, r[SCHEMA].at, r[SCHEMA].words);
        without[SCHEMA].at[BIKUVOA_AT_CLASSES] = (uint16_t)(classes + BIKUVOA_MAX_MARKS);
    }
    without[QUERY] = replaced(r[QUERY], BIKUVOA_CLASS, room ? classes : 0);
    without[STATE] = with_members(state, used, classes, room ? classes : 0);
    return room;
}

/* How often the mark stands in the query. */
static int places_of(Words query, size_t k)
{
    size_t n = query.at[BIKUVOA_AT_TOKENS];
    int places = 0;
    for (size_t i = BIKUVOA_CONCEPT_SIZES; i < BIKUVOA_CONCEPT_SIZES + n; i++)
        places += query.at[i] == BIKUVOA_MARK && query.at[i + n] == k;
    return places;
}

void check_marks(const Words *r, int held)
{
    unsigned used = used_in(r[QUERY]);
    size_t constants = r[SCHEMA].at[BIKUVOA_AT_CONSTANTS];
    int wider = held_by(r[SCHEMA], replaced(r[QUERY], BIKUVOA_EVERYTHING, 0), r[VIEW]) == 1, once = 1;
    for (size_t k = 0; k < BIKUVOA_MAX_MARKS; k++) once = once && places_of(r[QUERY], k) <= 1;
    CHECK(once ? held == wider : held >= wider);
    held_by_one_mark.times += held > wider;
    if (!used || used >> (BIKUVOA_MAX_CONSTANTS - constants)) return;
    Words schema = copied(UNMARKED + SCHEMA, r[SCHEMA].at, r[SCHEMA].words);
    schema.at[BIKUVOA_AT_CONSTANTS] = BIKUVOA_MAX_CONSTANTS;
    schema.at[BIKUVOA_AT_LOOSE] |= (uint16_t)((1u << BIKUVOA_MAX_CONSTANTS) - (1u << constants));
    CHECK(held_by(schema, replaced(r[QUERY], BIKUVOA_CONSTANT, constants), r[VIEW]) == (uint64_t)held);
}
