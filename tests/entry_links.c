/* Links by first and by second: the links of document 01's selections and of rings, links counted by hand, which kinds of facts
 * they are, which attributes are refused, and what else is accepted. */
#include "calls.h"
#include "check.h"
#include "rings.h"
#include "small.h"

static int call_links_by_first(const Record *r, Room room)
{
    return bikuvoa_links_by_first(r[SCHEMA].at, r[SCHEMA].words, r[QUERY].at, r[QUERY].words, r[STATE].at, r[STATE].words,
                                  (uint16_t)r[ATTRIBUTE].words, room.outs);
}

static int call_links_by_second(const Record *r, Room room)
{
    return bikuvoa_links_by_second(r[SCHEMA].at, r[SCHEMA].words, r[QUERY].at, r[QUERY].words, r[STATE].at, r[STATE].words,
                                   (uint16_t)r[ATTRIBUTE].words, room.outs);
}

/* Both counts of links are that number, or both calls are refused and alter nothing. */
static void links(const Record *r, int returned, uint64_t count, const char *what, int row)
{
    for (int entry = LINKS_BY_FIRST; entry <= LINKS_BY_SECOND; entry++) {
        uint64_t outs[3] = {97, UINT64_MAX, 99};
        check(call(entry, r, NULL, outs + 1) == returned && outs[1] == (returned ? UINT64_MAX : count), what, 10 * row + entry);
        check(outs[0] == 97 && outs[2] == 99, "beside the count of links", 10 * row + entry);
    }
}

/* The links of wears, of which either person has one. */
static void selections(void)
{
    for (int row = 0; row < SELECTIONS; row++) {
        const uint16_t *flags = SELECTED[row].flags;
        Record concept = concept_of(SELECTED[row].tokens);
        links(ON(schema_x, concept, NONE, state_s, NONE, NUMBER(WEARS)), 0, (uint64_t)flags[0] + flags[1], "links of S", row);
    }
}

static void rings(void)
{
    for (int i = 0; i < RINGS; i++) {
        size_t n = RING_OBJECTS[i];
        Record state = ring(n);
        for (size_t pairs = 0; pairs <= MOST_PAIRS; pairs++) {
            int row = (int)(100 * n + pairs);
            links(ON(one_attribute, own_value(pairs), NONE, state), 0, 2, "the last object's links", row);
            links(ON(one_attribute, value_of_value(pairs), NONE, state), 0, 3, "the last two objects' links", row);
        }
        links(ON(one_attribute, everything, NONE, state), 0, n + 1, "all links", (int)n);
    }
}

/* Objects 0 to 3 are persons, 4 and 5 straps. Attribute 1 has 6 pairs from a person, and whatever might be taken for that
 * count is another number: 4 persons, 3 of them with a value, 2 objects that are their values; 9 pairs in all, to 5 objects, 1
 * of them to a person; and in the attributes beside it 7 and 1 from a person, 8 and 12 in all. */
static Record season(void)
{
    static const uint16_t PAIRS[][3] = {
        {0, 0, 0}, {0, 0, 1}, {0, 0, 2}, {0, 0, 3}, {0, 0, 4}, {0, 0, 5}, {0, 0, 6}, {0, 7, 0},
        {1, 0, 4}, {1, 0, 5}, {1, 1, 4}, {1, 1, 5}, {1, 2, 4}, {1, 2, 5}, {1, 4, 0}, {1, 4, 6}, {1, 6, 7},
        {2, 3, 7}, {2, 4, 0}, {2, 4, 1}, {2, 4, 2}, {2, 4, 3}, {2, 5, 0}, {2, 5, 1}, {2, 5, 2}, {2, 5, 3}, {2, 6, 0}, {2, 6, 1},
        {2, 6, 2},
    };
    static uint16_t words[BIKUVOA_STATE_WORDS(4 + 2 + sizeof PAIRS / sizeof *PAIRS)];
    bikuvoa_state state = bikuvoa_start_state(words, sizeof words / sizeof *words, 8);
    for (size_t d = 0; d < 4; d++) bikuvoa_member(&state, PERSON, d);
    for (size_t d = 4; d < 6; d++) bikuvoa_member(&state, STRAP, d);
    for (size_t i = 0; i < sizeof PAIRS / sizeof *PAIRS; i++) bikuvoa_pair(&state, PAIRS[i][0], PAIRS[i][1], PAIRS[i][2]);
    return (Record){state.length, state.words};
}

/* The first 300 of 480 objects are persons, the last 100 straps. Of attribute 0 object 0 has every value, and every object has
 * the last as a value; of attribute 1 each has itself and the next 28; of attribute 2 the first 105 have themselves. That makes
 * 15,384 facts. */
static Record crowd(void)
{
    static uint16_t words[BIKUVOA_MAX_STATE_WORDS];
    bikuvoa_state state = bikuvoa_start_state(words, BIKUVOA_MAX_STATE_WORDS, 480);
    for (size_t d = 0; d < 480; d++) {
        if (d < 300) bikuvoa_member(&state, PERSON, d);
        if (d >= 380) bikuvoa_member(&state, STRAP, d);
        bikuvoa_pair(&state, 0, 0, d);
        bikuvoa_pair(&state, 0, d, 479);
        for (size_t e = d; e < d + 29; e++) bikuvoa_pair(&state, 1, d, e % 480);
        if (d < 105) bikuvoa_pair(&state, 2, d, d);
    }
    return (Record){state.length, state.words};
}

/* The links of attributes 0 to 3 from what is selected; attribute 3 has none. */
static const struct {
    Tokens tokens;
    uint64_t in_season[4], in_crowd[4];
} COUNTS[] = {
    {TOKENS(CLASS(PERSON)), {7, 6, 1, 0}, {480 + 299, 300 * 29, 105, 0}},
    {TOKENS(CLASS(STRAP)), {0, 2, 8, 0}, {100, 100 * 29, 0, 0}},
    {TOKENS(EVERYTHING), {8, 9, 12, 0}, {480 + 479, 480 * 29, 105, 0}},
    {TOKENS(CLASS(PERSON), CLASS(STRAP), BOTH), {0, 0, 0, 0}, {0, 0, 0, 0}},
    {TOKENS(EMPTY, CLASS(STRAP), FORWARD(1), REACHED), {7, 6, 0, 0}, {128, 128 * 29, 0, 0}},
    {TOKENS(EMPTY, EVERYTHING, FORWARD(2), EMPTY, COMMON), {0, 0, 0, 0}, {480 + 104, 105 * 29, 105, 0}},
};

static void link_counts(void)
{
    Record schema = declaring(2, 4, 0), few = season(), many = crowd();
    check(many.words == BIKUVOA_MAX_STATE_WORDS, "15,384 facts", 0);
    for (int row = 0; row < (int)(sizeof COUNTS / sizeof *COUNTS); row++) {
        Record concept = concept_of(COUNTS[row].tokens);
        for (size_t p = 0; p < 4; p++) {
            links(ON(schema, concept, NONE, few, NONE, NUMBER(p)), 0, COUNTS[row].in_season[p], "links", row);
            links(ON(schema, concept, NONE, many, NONE, NUMBER(p)), 0, COUNTS[row].in_crowd[p], "many links", row);
        }
    }
}

/* Beside the facts of the first attribute stand those of the last class, beside those of the last attribute those of the first
 * constant; the attributes between them have none. */
static void link_kinds(void)
{
    Record schema = declaring(24, 8, 4), last_class = concept_of((Tokens)TOKENS(CLASS(23)));
    uint16_t words[BIKUVOA_STATE_WORDS(5 + 3 + 4 + 4)];
    bikuvoa_state kinds = bikuvoa_start_state(words, sizeof words / sizeof *words, 6);
    for (size_t d = 0; d < 5; d++) bikuvoa_member(&kinds, 23, d);
    for (size_t k = 0; k < 4; k++) bikuvoa_name(&kinds, k, k);
    for (size_t d = 0; d < 3; d++) bikuvoa_pair(&kinds, 0, 5 - d, d);
    for (size_t d = 0; d < 4; d++) bikuvoa_pair(&kinds, 7, 5 - d, d);
    Record state = {kinds.length, kinds.words};
    for (size_t p = 0; p < 8; p++) {
        uint64_t all = p == 0 ? 3 : p == 7 ? 4 : 0;
        links(ON(schema, everything, NONE, state, NONE, NUMBER(p)), 0, all, "links by kind", (int)p);
        links(ON(schema, last_class, NONE, state, NONE, NUMBER(p)), 0, all ? all - 1 : 0, "links by kind and class", (int)p);
    }
}

/* Any number may be passed: also one that, cut to fewer bits, would be an attribute or give the kind of a fact. */
static void undeclared_attributes(void)
{
    static const size_t UNDECLARED[] = {8, 104, 128, 256, 32768, 65512, 65535};
    for (size_t n = 0; n <= 8; n++) {
        Record schema = declaring(0, n, 0);
        for (size_t p = 0; p < n; p++)
            links(ON(schema, everything, NONE, no_objects, NONE, NUMBER(p)), 0, 0, "no objects", (int)n);
        links(ON(schema, everything, NONE, no_objects, NONE, NUMBER(n)), BIKUVOA_BAD_ATTRIBUTE, 0, "past the last", (int)n);
        for (size_t i = 0; i < sizeof UNDECLARED / sizeof *UNDECLARED; i++)
            links(ON(schema, everything, NONE, no_objects, NONE, NUMBER(UNDECLARED[i])), BIKUVOA_BAD_ATTRIBUTE, 0,
                  "far past the last", (int)n);
    }
}

/* As many steps as a query may have: in a ring, paths of any length lead from every object. A state without facts. And one that
 * is not legal: in S no strap wears anything. */
static void what_links_take(void)
{
    Record state = ring(4);
    for (int steps = 0; steps <= BIKUVOA_QUERY_STEPS; steps++)
        links(ON(one_attribute, chain(steps), NONE, state), 0, 5, "steps", steps);
    links(ON(one_attribute, chain(BIKUVOA_QUERY_STEPS + 1), NONE, state), BIKUVOA_BAD_STEPS, 0, "a step too many", 0);
    const uint16_t no_facts[BIKUVOA_STATE_WORDS(0)] = {480, 0, 0};
    links(ON(one_attribute, everything, NONE, {BIKUVOA_STATE_WORDS(0), no_facts}), 0, 0, "links without facts", 0);
    links(ON(schema_x_needs, everything, NONE, state_s, NONE, NUMBER(WEARS)), 0, 2, "links of an illegal state", 0);
}

static void test_links(void)
{
    selections();
    rings();
    link_counts();
    link_kinds();
    undeclared_attributes();
    what_links_take();
}

#define TAKES_FOR_LINKS {[SCHEMA] = 1, [QUERY] = 1, [STATE] = 1, [ATTRIBUTE] = 1}

const Entry entry_links_by_first = {
    .name = "links by first",
    .takes = TAKES_FOR_LINKS,
    .call = call_links_by_first,
    .test = test_links,
};

const Entry entry_links_by_second = {
    .name = "links by second",
    .takes = TAKES_FOR_LINKS,
    .call = call_links_by_second,
    .test = test_links,
};
