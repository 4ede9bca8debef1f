/* Marks, called from C through include/bikuvoa.h: in which concepts each entry takes them, and what is refused before and after
 * that; which facts a state has for them; what a counterexample finds under the objects that they are; and the verdicts, by
 * hand, where one mark stands at several places, with the facts of each written state. Not proved; it prints how many checks
 * passed. */
#include "largest.h"
#include "refused.h"
#include "sets.h"
#include "verdict.h"
#include <stdio.h>
#include <string.h>

enum { MOST = BIKUVOA_MAX_MARKS, SUBSETS = 1 << MOST };
enum { A, B, C, CLASSES = BIKUVOA_MAX_CLASSES };
enum { P, Q, R, S, ATTRIBUTES = BIKUVOA_MAX_ATTRIBUTES };

/* Steps that land on something, what has such a value, and what has a value of one path and of another. */
#define ANY(p) EVERYTHING, FORWARD(p)
#define ANY_BACK(p) EVERYTHING, BACKWARD(p)
#define VALUE(p, ...) EMPTY, __VA_ARGS__, FORWARD(p), REACHED
#define MEETING(p, q) EMPTY, ANY(p), EMPTY, ANY(q), COMMON
#define OWN_VALUE(p) EMPTY, ANY(p), EMPTY, COMMON

/* Calls that are accepted, but for what is to be tried. */

/* A schema with one constant and one with two; everything, a class that no state has, and two concepts where one should be. */
static Record one_constant, two_constants, everything, empty_class, two_concepts;

static void make_records(void)
{
    one_constant = declaring(CLASSES, ATTRIBUTES, 1);
    two_constants = declaring(CLASSES, ATTRIBUTES, 2);
    everything = concept_of((Tokens)TOKENS(EVERYTHING));
    empty_class = concept_of((Tokens)TOKENS(CLASS(B)));
    two_concepts = concept_of((Tokens)TOKENS(EVERYTHING, EVERYTHING));
}

/* Objects 0 and 1 are in A, 1 has every value of P, and the constant names 2. Mark k is each object of the set chosen[k]. */
static bikuvoa_state state_of(const unsigned *chosen)
{
    static uint16_t words[BIKUVOA_STATE_WORDS(30)];
    bikuvoa_state state = bikuvoa_start_state(words, BIKUVOA_STATE_WORDS(30), 3);
    for (size_t d = 0; d < 2; d++) bikuvoa_member(&state, A, d);
    for (size_t d = 0; d < 3; d++) {
        bikuvoa_pair(&state, P, 1, d);
        for (size_t k = 0; k < MOST; k++)
            if (has(chosen[k], d)) bikuvoa_choose(&state, k, d);
    }
    bikuvoa_name(&state, 0, 2);
    return state;
}

static Record record_of(bikuvoa_state state)
{
    return (Record){state.length, state.words};
}

/* The marks of the set are object 0. */
static bikuvoa_state state_for(unsigned set)
{
    unsigned chosen[MOST];
    for (size_t k = 0; k < MOST; k++) chosen[k] = has(set, k) ? BIT(0) : 0;
    return state_of(chosen);
}

static Record views_of(Record second)
{
    static uint16_t words[BIKUVOA_CATALOGUE_SIZES(2) + 2 * BIKUVOA_MAX_CONCEPT_WORDS];
    bikuvoa_views views = bikuvoa_start_views(words, sizeof words / sizeof *words);
    bikuvoa_view(&views, everything.at, everything.words);
    bikuvoa_view(&views, second.at, second.words);
    return (Record){views.length, words};
}

/* With this concept at that place. */
static void around(Record *r, int place, Record concept, Record state)
{
    const Record good[PLACES] = {
        one_constant, everything, everything, state, WORDS(BIKUVOA_DECIDE_WORDS), NUMBER(P), views_of(everything),
        WORDS(BIKUVOA_MAX_VIEWS)};
    memcpy(r, good, sizeof good);
    r[place] = place == VIEWS ? views_of(concept) : concept;
}

/* Where a mark may stand. */

/* Whether the entry has concepts at that place. */
static int reads(int entry, int place)
{
    return (place == QUERY || place == VIEW || place == VIEWS) && takes(entry, place);
}

static int may_stand(int entry, int place, uint16_t argument)
{
    return place == QUERY && takes_marks(entry) && argument < 4;
}

enum { FORMS = 6 };

static Record form(int which, uint16_t k)
{
    static uint16_t words[BIKUVOA_CONCEPT_WORDS(7)];
    const Tokens forms[FORMS] = {
        TOKENS(MARK(k)), TOKENS(EVERYTHING, MARK(k), BOTH), TOKENS(VALUE(P, MARK(k))),
        TOKENS(EMPTY, ANY(P), MARK(k), BACKWARD(P), EMPTY, COMMON), TOKENS(EMPTY, EMPTY, MARK(k), FORWARD(P), COMMON),
        TOKENS(EMPTY, EMPTY, MARK(k), BACKWARD(Q), REACHED, FORWARD(P), REACHED),
    };
    return concept_in(words, forms[which]);
}

/* Every entry and every place, with marks up to two past the last and with large numbers, some of which are small if cut. */
static const uint16_t ARGUMENTS[] = {0,  1,  2,  3,   4,   5,   7,   8,    15,    16,    31,
                                     32, 35, 36, 255, 256, 259, 512, 4096, 32768, 65532, 65535};

static void tried_at(int entry, int place, int allowed)
{
    for (size_t i = 0; i < sizeof ARGUMENTS / sizeof *ARGUMENTS; i++)
        for (int which = 0; which < FORMS; which++) {
            const uint16_t k = ARGUMENTS[i];
            const int row = 100000 * entry + 10000 * place + (int)(10 * i) + which;
            Record r[PLACES];
            if (may_stand(entry, place, k) != allowed) continue;
            around(r, place, form(which, k), record_of(state_for(allowed ? BIT(k) : 0)));
            if (allowed) accepted(entry, r, "a mark of a query", row);
            else refused(entry, r, 4, "a mark where none may be", row);
        }
}

static void where_marks_stand(void)
{
    for (int allowed = 0; allowed < 2; allowed++) {
        clear();
        for (int entry = 0; entry < ENTRIES; entry++)
            for (int place = 0; place < PLACES; place++)
                if (reads(entry, place)) tried_at(entry, place, allowed);
        check(allowed || unaltered(), "refused by a mark", 0);
    }
}

/* Every choice among faults beside such a mark: three of the schema, the query's pile where the mark is in the view, the shape
 * before it, the pile and the steps after it, and all that follows its record. The first is returned. */
enum {
    BAD_SHAPE = 1, BAD_LOOSE = 2, BAD_AXIOM = 4, BAD_QUERY = 8, BAD_TOKENS = 16, BAD_PILE = 32, BAD_STEPS = 64, BAD_REST = 128,
    ALL_FAULTS = 256
};

static Record faulty(int faults, uint16_t k)
{
    static uint16_t words[BIKUVOA_CONCEPT_WORDS(2)];
    bikuvoa_concept c = bikuvoa_start_concept(words, BIKUVOA_CONCEPT_WORDS(2));
    if (faults & BAD_PILE) bikuvoa_both(&c);
    bikuvoa_mark(&c, k);
    if (faults & BAD_STEPS) words[BIKUVOA_AT_STEPS] = 1;
    if (faults & BAD_TOKENS) words[BIKUVOA_AT_TOKENS]++;
    return (Record){c.length, words};
}

static void spoil_after(Record *r, int place)
{
    if (place == QUERY) r[VIEW] = (Record)NONE;
    r[STATE] = r[LENT] = r[ORDER] = (Record)NONE;
    r[ATTRIBUTE] = (Record)NUMBER(ATTRIBUTES);
}

static void several_faults(int entry, int place, int faults)
{
    const uint16_t words[] = {CLASSES, ATTRIBUTES, 1, 1, faults & BAD_LOOSE ? 2 : 0, faults & BAD_AXIOM ? 6 * 256 : 256, 0};
    const int before = place == VIEW && reads(entry, QUERY) && faults & BAD_QUERY;
    const int of_concept = before ? 5 : faults & BAD_TOKENS ? 3 : 4;
    const int number = faults & BAD_SHAPE ? 1 : faults & BAD_LOOSE ? 14 : faults & BAD_AXIOM ? 2 : of_concept;
    Record r[PLACES];
    around(r, place, faulty(faults, may_stand(entry, place, 0) ? 4 : 0), record_of(state_for(0)));
    r[SCHEMA] = (Record){faults & BAD_SHAPE ? 6 : 7, words};
    if (before) r[QUERY] = two_concepts;
    if (faults & BAD_REST) spoil_after(r, place);
    refused(entry, r, number, "the first of several faults", 10000 * entry + 1000 * place + faults);
}

static void all_faults(void)
{
    clear();
    for (int entry = 0; entry < ENTRIES; entry++)
        for (int place = 0; place < PLACES; place++)
            for (int faults = 0; reads(entry, place) && faults < ALL_FAULTS; faults++) several_faults(entry, place, faults);
    check(unaltered(), "refused by the first of several faults", 0);
}

/* Marks are no names. */

static const struct {
    Tokens tokens;
    uint32_t classes, attributes;
    uint64_t count;
} NAMES[] = {
    {TOKENS(MARK(0)), 0, 0, 0},
    {TOKENS(MARK(3)), 0, 0, 0},
    {TOKENS(MARK(1), MARK(0), BOTH, MARK(2), BOTH), 0, 0, 0},
    {TOKENS(CLASS(3), MARK(3), BOTH), BIT(3), 0, 1},
    {TOKENS(MARK(1), CLASS(0), BOTH, CLASS(23), BOTH), BIT(0) | BIT(23), 0, 2},
    {TOKENS(EMPTY, MARK(1), FORWARD(2), MARK(0), BACKWARD(5), REACHED), 0, BIT(2) | BIT(5), 0},
    {TOKENS(MARK(2), EMPTY, CLASS(9), MARK(2), BOTH, FORWARD(7), REACHED, BOTH), BIT(9), BIT(7), 1},
};

static void names(void)
{
    for (int row = 0; row < (int)(sizeof NAMES / sizeof *NAMES); row++) {
        Record query = concept_of(NAMES[row].tokens);
        uint64_t named = 99;
        clear();
        check(call(CHECK_QUERY, ON(one_constant, query), NULL, &named) == 0, "names", row);
        check(sets_are(NAMES[row].classes, NAMES[row].attributes) && named == NAMES[row].count, "names", row);
    }
}

/* The facts of marks. */

/* A query that uses these marks: what has each of them as a value of P. */
static Record query_of(unsigned used)
{
    static uint16_t words[BIKUVOA_CONCEPT_WORDS(1 + 5 * MOST)];
    bikuvoa_concept c = bikuvoa_start_concept(words, sizeof words / sizeof *words);
    bikuvoa_everything(&c);
    for (size_t k = 0; k < MOST; k++) {
        if (!has(used, k)) continue;
        bikuvoa_empty(&c);
        bikuvoa_mark(&c, k);
        bikuvoa_forward(&c, P);
        bikuvoa_reached(&c);
        bikuvoa_both(&c);
    }
    return (Record){c.length, words};
}

static void exchange(uint16_t *one, uint16_t *other)
{
    uint16_t first = *one;
    *one = *other;
    *other = first;
}

/* Every set of used marks against no fact, either of two, or two of each mark; with a kind past the last, with two facts
 * exchanged, and with a constant that names nothing: 8 before 9 before 10. */
enum { LATE_KIND = 1, EXCHANGED = 2, UNNAMED = 4 };

static int number_of(unsigned used, const unsigned *chosen, int faults)
{
    int one_each = 1;
    for (size_t k = 0; k < MOST; k++) {
        if (!has(used, k) && chosen[k]) return 8;
        if (has(used, k) && (chosen[k] == 0 || chosen[k] & (chosen[k] - 1))) one_each = 0;
    }
    return faults & LATE_KIND ? 8 : faults & EXCHANGED ? 9 : faults & UNNAMED || !one_each ? 10 : 0;
}

/* Whatever is accepted finds object 1, which has every value; or 0, if the query uses no mark. */
static void judged(unsigned used, const unsigned *chosen, int faults, int row)
{
    const Record schema = faults & UNNAMED ? two_constants : one_constant;
    const int number = number_of(used, chosen, faults);
    bikuvoa_state state = state_of(chosen);
    uint64_t found = UNTOUCHED_OUT;
    if (faults & LATE_KIND) bikuvoa_fact(&state, 40 * BIKUVOA_OBJECT_PART, 0);
    if (faults & EXCHANGED) exchange(&state.words[BIKUVOA_STATE_SIZES], &state.words[BIKUVOA_STATE_SIZES + 1]);
    check(call(COUNTEREXAMPLE, ON(schema, query_of(used), empty_class, record_of(state)), NULL, &found) == number,
          "the facts of marks", row);
    check(found == (number ? UNTOUCHED_OUT : used ? 2 : 1), "what is found", row);
}

static void facts_of_marks(void)
{
    static const unsigned WAYS[4] = {0, BIT(0), BIT(2), BIT(0) | BIT(1)};
    for (unsigned used = 0; used < SUBSETS; used++)
        for (unsigned way = 0; way < 256; way++) {
            const unsigned chosen[MOST] = {WAYS[way & 3], WAYS[way >> 2 & 3], WAYS[way >> 4 & 3], WAYS[way >> 6]};
            for (int faults = 0; faults < 8; faults++) judged(used, chosen, faults, (int)(10000 * used + 10 * way) + faults);
        }
}

/* A further fact beside one of each mark, all of which are used. */
static void further(size_t left, size_t right, int number, const char *what, int row)
{
    bikuvoa_state state = state_for(SUBSETS - 1);
    bikuvoa_fact(&state, left, right);
    refused(COUNTEREXAMPLE, ON(one_constant, query_of(SUBSETS - 1), empty_class, record_of(state)), number, what, row);
}

/* Objects that are not there, right words that are not 0, and every kind past the last; a fact of a mark twice. */
static void faulty_facts(void)
{
    for (size_t kind = 36; kind < 128; kind++) {
        const size_t left = kind * BIKUVOA_OBJECT_PART;
        const int number = kind < 40 ? 10 : 8, row = (int)kind;
        for (size_t d = 1; d < 3; d++) further(left + d, 0, number, "a further object", row);
        for (size_t d = 3; d < 512; d++) further(left + d, 0, 8, "an object that is not there", row);
        for (size_t right = 1; right < 65536; right = 2 * right + 1) further(left, right, 8, "a right word", row);
        if (kind >= 40) further(left, 0, 8, "a kind past the last", row);
    }
    for (size_t k = 0; k < MOST; k++) {
        bikuvoa_state state = state_for(BIT(k));
        state.length = bikuvoa_insert(state.words, 100, state.length, BIKUVOA_STATE_SIZES, BIKUVOA_AT_FACTS, state.length,
                                      (36 + k) * BIKUVOA_OBJECT_PART, 0);
        refused(COUNTEREXAMPLE, ON(one_constant, query_of(BIT(k)), empty_class, record_of(state)), 9, "a fact twice", (int)k);
    }
}

/* Every set of marks in a state for a query without marks. */
static void facts_without_use(void)
{
    clear();
    for (unsigned set = SUBSETS; set-- > 0;)
        for (int entry = 0; entry < ENTRIES; entry++) {
            Record r[PLACES];
            if (!takes(entry, STATE)) continue;
            around(r, QUERY, everything, record_of(state_for(set)));
            if (set) refused(entry, r, 8, "marks that no query uses", (int)(10 * set) + entry);
            else accepted(entry, r, "no marks", entry);
            check(!set || unaltered(), "refused by a mark's fact", entry);
        }
}

/* Limits. */

/* What is all of the first so many marks; everything, if there are none. */
static Record all_marks(size_t marks)
{
    static uint16_t words[BIKUVOA_CONCEPT_WORDS(1 + 2 * MOST)];
    bikuvoa_concept c = bikuvoa_start_concept(words, sizeof words / sizeof *words);
    bikuvoa_everything(&c);
    for (size_t k = 0; k < marks; k++) {
        bikuvoa_mark(&c, k);
        bikuvoa_both(&c);
    }
    return (Record){c.length, words};
}

/* So many facts are accepted, with marks or without, and one more is not. The marks are the last object, and constant 0 is the
 * first. */
static void most_facts(void)
{
    const Record schema = declaring(CLASSES, ATTRIBUTES, 4), first = concept_of((Tokens)TOKENS(CONSTANT(0)));
    for (size_t marks = 0; marks <= MOST; marks++) {
        bikuvoa_state largest = largest_state(marks);
        const Record query = all_marks(marks), state = record_of(largest);
        const Record *with = ON(schema, query, first, state), *without = ON(schema, everything, first, state, WORDS(480));
        const int row = (int)marks;
        uint64_t found = 99;
        check(bikuvoa_facts(largest.words) == 15384 && state.words == 30771, "15,384 facts", row);
        check(call(COUNTEREXAMPLE, with, NULL, &found) == 0 && found == (marks ? 480 : 2), "15,384 facts", row);
        clear();
        for (int entry = 0; entry < ENTRIES; entry++) {
            if (!takes(entry, STATE)) continue;
            if (marks) refused(entry, without, 8, "15,384 facts, some of marks", row);
            else accepted(entry, without, "15,384 facts without marks", row);
        }
        bikuvoa_pair(&largest, 0, 0, 21);
        for (int entry = 0; entry < ENTRIES; entry++) {
            const Record larger = record_of(largest), *r = ON(schema, everything, first, larger, WORDS(480));
            if (takes(entry, STATE)) refused(entry, r, 7, "15,385 facts", row);
        }
        refused(COUNTEREXAMPLE, ON(schema, query, first, record_of(largest)), 7, "15,385 facts", row);
    }
}

/* The least lent words, and what is written of them. */
static void lent_words(void)
{
    for (unsigned used = 0; used < SUBSETS; used++) {
        const Record query = query_of(used);
        uint64_t outs[2] = {0, 0};
        clear();
        for (size_t words = 30762; words < 30771; words++)
            refused(DECIDE, ON(one_constant, query, empty_class, NONE, WORDS(words)), 11, "too few words", (int)used);
        check(unaltered(), "refused by few words", (int)used);
        check(call(DECIDE, ON(one_constant, query, empty_class, NONE, WORDS(30771)), lent, outs) == 0 && outs[0] > 0,
              "enough words", (int)used);
        check(untouched_from(bikuvoa_state_length(lent)), "words after the record", (int)used);
    }
}

/* Counterexamples: the lowest object under the objects that the marks are. */

/* A refused call leaves it as it was. */
static uint64_t found_by(Tokens query, bikuvoa_state state)
{
    uint16_t words[BIKUVOA_MAX_CONCEPT_WORDS];
    uint64_t found = UNTOUCHED_OUT;
    call(COUNTEREXAMPLE, ON(one_constant, concept_in(words, query), empty_class, record_of(state)), NULL, &found);
    return found;
}

/* Any object may be any mark. */
static void every_object(void)
{
    uint16_t words[BIKUVOA_STATE_WORDS(2)];
    for (uint16_t k = 0; k < MOST; k++)
        for (size_t d = 0; d < 480; d++) {
            bikuvoa_state state = bikuvoa_start_state(words, BIKUVOA_STATE_WORDS(2), 480);
            bikuvoa_name(&state, 0, 0);
            bikuvoa_choose(&state, k, d);
            check(found_by((Tokens)TOKENS(MARK(k)), state) == d + 1, "the object of a mark", (int)(1000u * k + d));
        }
}

/* The values of P and of Q of four objects, as sets. Object 0 has all of them, and is in the view. */
static const unsigned OF_P[] = {15, BIT(1) | BIT(2), BIT(2) | BIT(3), BIT(0) | BIT(1)};
static const unsigned OF_Q[] = {15, BIT(2) | BIT(3), BIT(2), BIT(1) | BIT(3)};

static bikuvoa_state state_of_values(uint16_t *words)
{
    bikuvoa_state state = bikuvoa_start_state(words, BIKUVOA_STATE_WORDS(30), 4);
    bikuvoa_member(&state, B, 0);
    for (size_t d = 0; d < 4; d++)
        for (size_t e = 0; e < 4; e++) {
            if (has(OF_P[d], e)) bikuvoa_pair(&state, P, d, e);
            if (has(OF_Q[d], e)) bikuvoa_pair(&state, Q, d, e);
        }
    bikuvoa_name(&state, 0, 3);
    return state;
}

/* What has mark i as a value of P and mark j as a value of Q; and what is mark i and has mark j as a value of Q. */
static void found_under(uint16_t i, size_t d, uint16_t j, size_t e)
{
    uint16_t words[BIKUVOA_STATE_WORDS(30)];
    bikuvoa_state state = state_of_values(words);
    const int row = (int)(1000u * i + 100 * d + 10u * j + e);
    uint64_t lowest = 0;
    bikuvoa_choose(&state, i, d);
    bikuvoa_choose(&state, j, e);
    for (size_t o = 4; o-- > 1;)
        if (has(OF_P[o], d) && has(OF_Q[o], e)) lowest = o + 1;
    check(found_by((Tokens)TOKENS(VALUE(P, MARK(i)), VALUE(Q, MARK(j)), BOTH), state) == lowest, "marks as values", row);
    lowest = d > 0 && has(OF_Q[d], e) ? d + 1 : 0;
    check(found_by((Tokens)TOKENS(MARK(i), VALUE(Q, MARK(j)), BOTH), state) == lowest, "a mark and its value", row);
}

/* Two marks, of one object or of two, and one mark twice. */
static void every_choice(void)
{
    for (uint16_t i = 0; i < MOST; i++)
        for (uint16_t j = 0; j < MOST; j++)
            for (size_t d = 0; d < 4; d++)
                for (size_t e = 0; e < 4; e++)
                    if (i != j || d == e) found_under(i, d, j, e);
}

/* Verdicts. */

static unsigned used_in(Record query)
{
    size_t n = query.at[BIKUVOA_AT_TOKENS];
    unsigned used = 0;
    for (size_t i = BIKUVOA_CONCEPT_SIZES; i < BIKUVOA_CONCEPT_SIZES + n; i++)
        if (query.at[i] == BIKUVOA_MARK) used |= BIT(query.at[i + n]);
    return used;
}

/* In the written state just these marks have a fact, and each of them one. */
static int are_chosen(unsigned used)
{
    unsigned chosen = 0;
    for (size_t i = 0; i < bikuvoa_facts(written); i++) {
        size_t kind = bikuvoa_fact_kind(written, i);
        if (kind < 36) continue;
        if (has(chosen, kind - 36)) return 0;
        chosen |= BIT(kind - 36);
    }
    return chosen == used;
}

/* A mark is what a loose constant is that nothing else mentions. The verdict with such constants after the declared ones, if
 * there is room for them. */
static void with_constants(Record schema, Record query, Record view, int held, const char *what, int row)
{
    uint16_t schema_words[BIKUVOA_MAX_SCHEMA_WORDS], query_words[BIKUVOA_MAX_CONCEPT_WORDS];
    const size_t constants = schema.at[BIKUVOA_AT_CONSTANTS], n = query.at[BIKUVOA_AT_TOKENS];
    unsigned used = used_in(query);
    if (used >> (BIKUVOA_MAX_CONSTANTS - constants)) return;
    memcpy(schema_words, schema.at, schema.words * sizeof *schema_words);
    memcpy(query_words, query.at, query.words * sizeof *query_words);
    schema_words[BIKUVOA_AT_CONSTANTS] = BIKUVOA_MAX_CONSTANTS;
    schema_words[BIKUVOA_AT_LOOSE] |= (uint16_t)(SUBSETS - BIT(constants));
    for (size_t i = BIKUVOA_CONCEPT_SIZES; i < BIKUVOA_CONCEPT_SIZES + n; i++)
        if (query_words[i] == BIKUVOA_MARK) {
            query_words[i] = BIKUVOA_CONSTANT;
            query_words[i + n] = (uint16_t)(query_words[i + n] + constants);
        }
    verdict((Record){schema.words, schema_words}, (Record){query.words, query_words}, view, held, what, row);
}

static void decided(Record schema, Record query, Record view, int held, const char *what, int row)
{
    verdict(schema, query, view, held, what, row);
    if (!held) check(are_chosen(used_in(query)), "the marks of the written state", row);
    with_constants(schema, query, view, held, what, row);
}

enum { WITHOUT, SINGLE, NEEDED, TYPED };

/* Without axioms; or A has at most one value of P; or A needs P; or the values of Q are in B. */
static Record schema_of(size_t constants, unsigned loose, int axioms)
{
    static uint16_t words[BIKUVOA_SCHEMA_WORDS(1)];
    bikuvoa_schema schema = bikuvoa_start_schema(words, BIKUVOA_SCHEMA_WORDS(1), CLASSES, ATTRIBUTES, constants);
    if (axioms == SINGLE) bikuvoa_single(&schema, A, P);
    if (axioms == NEEDED) bikuvoa_necessary(&schema, A, P);
    if (axioms == TYPED) bikuvoa_relates(&schema, Q, A, B);
    words[BIKUVOA_AT_LOOSE] = (uint16_t)loose;
    return (Record){schema.length, words};
}

/* The tokens with mark j in place of mark 1, and mark i in place of mark 0. */
static Record numbered(uint16_t *words, Tokens tokens, uint16_t i, uint16_t j)
{
    Record query = concept_in(words, tokens);
    for (size_t t = BIKUVOA_CONCEPT_SIZES; t < BIKUVOA_CONCEPT_SIZES + tokens.n; t++)
        if (words[t] == BIKUVOA_MARK) words[t + tokens.n] = words[t + tokens.n] ? j : i;
    return query;
}

/* Held if the two marks are one, and open if not. */
static const struct {
    const char *what;
    int axioms;
    size_t constants;
    Tokens query, view;
} TWO_PLACES[] = {
    {"two values", WITHOUT, 0, TOKENS(VALUE(P, MARK(0)), VALUE(Q, MARK(1)), BOTH), TOKENS(MEETING(P, Q))},
    {"two values, asked for the other way", WITHOUT, 0, TOKENS(VALUE(P, MARK(0)), VALUE(Q, MARK(1)), BOTH),
     TOKENS(MEETING(Q, P))},
    {"the start and a value", WITHOUT, 0, TOKENS(MARK(0), VALUE(P, MARK(1)), BOTH), TOKENS(OWN_VALUE(P))},
    {"a value and the start", WITHOUT, 0, TOKENS(VALUE(P, MARK(0)), MARK(1), BOTH), TOKENS(EMPTY, EMPTY, ANY(P), COMMON)},
    {"a circle of two steps", WITHOUT, 0, TOKENS(MARK(0), EMPTY, ANY(P), MARK(1), FORWARD(Q), REACHED, BOTH),
     TOKENS(EMPTY, ANY(P), ANY(Q), EMPTY, COMMON)},
    {"steps after each other", WITHOUT, 0, TOKENS(EMPTY, MARK(0), FORWARD(P), MARK(1), FORWARD(Q), REACHED),
     TOKENS(VALUE(P, OWN_VALUE(Q)))},
    {"there and back", WITHOUT, 0, TOKENS(EMPTY, MARK(0), FORWARD(P), MARK(1), BACKWARD(Q), REACHED),
     TOKENS(VALUE(P, OWN_VALUE(Q)))},
    {"two steps back", WITHOUT, 0, TOKENS(EMPTY, MARK(0), BACKWARD(P), REACHED, EMPTY, MARK(1), BACKWARD(Q), REACHED, BOTH),
     TOKENS(EMPTY, ANY_BACK(P), EMPTY, ANY_BACK(Q), COMMON)},
    {"below a step", WITHOUT, 0, TOKENS(VALUE(P, VALUE(Q, MARK(0))), VALUE(R, MARK(1)), BOTH),
     TOKENS(EMPTY, ANY(P), ANY(Q), EMPTY, ANY(R), COMMON)},
    {"below a step back", WITHOUT, 0, TOKENS(EMPTY, VALUE(P, MARK(0)), BACKWARD(Q), REACHED, VALUE(R, MARK(1)), BOTH),
     TOKENS(EMPTY, ANY_BACK(Q), ANY(P), EMPTY, ANY(R), COMMON)},
    {"at the start and three steps below", WITHOUT, 0, TOKENS(MARK(0), VALUE(P, VALUE(Q, VALUE(R, MARK(1)))), BOTH),
     TOKENS(EMPTY, ANY(P), ANY(Q), ANY(R), EMPTY, COMMON)},
    {"below different steps", WITHOUT, 0, TOKENS(VALUE(P, VALUE(Q, MARK(0))), VALUE(R, VALUE(S, MARK(1))), BOTH),
     TOKENS(EMPTY, ANY(P), ANY(Q), EMPTY, ANY(R), ANY(S), COMMON)},
    {"at a common value", WITHOUT, 0, TOKENS(EMPTY, MARK(0), FORWARD(P), EMPTY, ANY(Q), COMMON, VALUE(R, MARK(1)), BOTH),
     TOKENS(MEETING(Q, R))},
    {"between two others", WITHOUT, 0, TOKENS(VALUE(P, MARK(0)), VALUE(Q, MARK(1)), VALUE(R, MARK(0)), BOTH, BOTH),
     TOKENS(MEETING(Q, R))},
    {"classes of one object", WITHOUT, 0,
     TOKENS(VALUE(P, CLASS(A), MARK(0), BOTH), VALUE(Q, MARK(1), CLASS(B), BOTH), BOTH),
     TOKENS(VALUE(P, CLASS(B), CLASS(A), BOTH))},
    {"a class that the start has", WITHOUT, 0, TOKENS(CLASS(A), MARK(0), BOTH, VALUE(P, MARK(1)), BOTH),
     TOKENS(VALUE(P, CLASS(A)))},
    {"a class by an axiom", TYPED, 0, TOKENS(VALUE(P, MARK(0)), VALUE(Q, MARK(1)), BOTH), TOKENS(VALUE(P, CLASS(B)))},
    {"a needed value", NEEDED, 0, TOKENS(VALUE(Q, CLASS(A), MARK(0), BOTH), VALUE(R, MARK(1)), BOTH),
     TOKENS(VALUE(R, VALUE(P, EVERYTHING)))},
    {"the one value of one object", SINGLE, 0,
     TOKENS(VALUE(Q, CLASS(A), MARK(0), BOTH, VALUE(P, CLASS(B)), BOTH), VALUE(R, MARK(1), VALUE(P, CLASS(C)), BOTH), BOTH),
     TOKENS(VALUE(R, VALUE(P, CLASS(B), CLASS(C), BOTH)))},
    {"beside a constant", WITHOUT, 1, TOKENS(VALUE(P, CONSTANT(0), MARK(0), BOTH), VALUE(Q, MARK(1)), BOTH),
     TOKENS(VALUE(Q, CONSTANT(0)))},
    {"beside a constant at the start", WITHOUT, 2, TOKENS(CONSTANT(1), MARK(0), BOTH, VALUE(P, MARK(1)), BOTH),
     TOKENS(VALUE(P, CONSTANT(1)))},
};

static void two_places(void)
{
    uint16_t words[BIKUVOA_MAX_CONCEPT_WORDS];
    for (int row = 0; row < (int)(sizeof TWO_PLACES / sizeof *TWO_PLACES); row++) {
        const Record view = concept_of(TWO_PLACES[row].view);
        const Record schema = schema_of(TWO_PLACES[row].constants, 0, TWO_PLACES[row].axioms);
        for (uint16_t i = 0; i < MOST; i++)
            for (uint16_t j = 0; j < MOST; j++)
                decided(schema, numbered(words, TWO_PLACES[row].query, i, j), view, i == j, TWO_PLACES[row].what,
                        100 * row + 10 * i + j);
    }
}

/* Marks that other marks, axioms or constants make one object, or that nothing does. */
static const struct {
    const char *what;
    int axioms;
    size_t constants;
    Tokens query, view;
    int held;
} SEVERAL[] = {
    {"two marks of one value", WITHOUT, 0,
     TOKENS(VALUE(P, MARK(0)), VALUE(Q, MARK(0), MARK(1), BOTH), VALUE(R, MARK(1)), BOTH, BOTH), TOKENS(MEETING(P, R)), 1},
    {"two marks of a common value", WITHOUT, 0,
     TOKENS(VALUE(P, MARK(2)), EMPTY, MARK(2), FORWARD(Q), EMPTY, MARK(0), FORWARD(S), COMMON, VALUE(R, MARK(0)), BOTH, BOTH),
     TOKENS(MEETING(R, P)), 1},
    {"two marks of the start", WITHOUT, 0, TOKENS(MARK(3), MARK(1), BOTH, VALUE(P, MARK(3)), VALUE(Q, MARK(1)), BOTH, BOTH),
     TOKENS(MEETING(P, Q)), 1},
    {"a chain of all marks", WITHOUT, 0,
     TOKENS(VALUE(P, MARK(0)), VALUE(Q, MARK(0), MARK(1), BOTH), VALUE(Q, MARK(2), MARK(1), BOTH),
            VALUE(R, MARK(2), MARK(3), BOTH), VALUE(S, MARK(3)), BOTH, BOTH, BOTH, BOTH),
     TOKENS(MEETING(S, P)), 1},
    {"a chain that is cut", WITHOUT, 0,
     TOKENS(VALUE(P, MARK(0)), VALUE(Q, MARK(0), MARK(1), BOTH), VALUE(Q, MARK(1), MARK(1), BOTH),
            VALUE(R, MARK(2), MARK(3), BOTH), VALUE(S, MARK(3)), BOTH, BOTH, BOTH, BOTH),
     TOKENS(MEETING(S, P)), 0},
    {"marks of the one value", SINGLE, 0,
     TOKENS(CLASS(A), VALUE(P, MARK(0)), VALUE(P, MARK(1)), VALUE(Q, MARK(0)), VALUE(R, MARK(1)), BOTH, BOTH, BOTH, BOTH),
     TOKENS(MEETING(Q, R)), 1},
    {"marks of two values", WITHOUT, 0,
     TOKENS(CLASS(A), VALUE(P, MARK(0)), VALUE(P, MARK(1)), VALUE(Q, MARK(0)), VALUE(R, MARK(1)), BOTH, BOTH, BOTH, BOTH),
     TOKENS(MEETING(Q, R)), 0},
    {"marks of one constant", WITHOUT, 1,
     TOKENS(VALUE(P, MARK(0), CONSTANT(0), BOTH), VALUE(Q, CONSTANT(0), MARK(1), BOTH), VALUE(R, MARK(1)), BOTH, BOTH),
     TOKENS(MEETING(P, R)), 1},
    {"marks of two constants", WITHOUT, 2,
     TOKENS(VALUE(P, MARK(0), CONSTANT(0), BOTH), VALUE(Q, CONSTANT(1), MARK(1), BOTH), VALUE(R, MARK(1)), BOTH, BOTH),
     TOKENS(MEETING(P, R)), 0},
    {"a mark is no constant", WITHOUT, 1, TOKENS(VALUE(P, MARK(0)), VALUE(Q, MARK(0)), BOTH), TOKENS(VALUE(P, CONSTANT(0))), 0},
    {"a mark of everything", WITHOUT, 0, TOKENS(MARK(1), VALUE(P, MARK(1)), BOTH), TOKENS(EVERYTHING), 1},
};

static void several_marks(void)
{
    for (int row = 0; row < (int)(sizeof SEVERAL / sizeof *SEVERAL); row++)
        decided(schema_of(SEVERAL[row].constants, 0, SEVERAL[row].axioms), concept_of(SEVERAL[row].query),
                concept_of(SEVERAL[row].view), SEVERAL[row].held, SEVERAL[row].what, row);
}

/* Two constants beside one mark, under every loose word: if neither is loose, no object is in the query, and so any view holds
 * it. Beside two marks it has objects. */
static void constants_of_a_mark(void)
{
    const Tokens query = TOKENS(VALUE(P, CONSTANT(0), MARK(0), BOTH), VALUE(Q, MARK(1), CONSTANT(1), BOTH), BOTH);
    const Record meeting = concept_of((Tokens)TOKENS(MEETING(P, Q)));
    uint16_t words[BIKUVOA_MAX_CONCEPT_WORDS];
    for (unsigned loose = 0; loose < 4; loose++)
        for (uint16_t i = 0; i < MOST; i++)
            for (uint16_t j = 0; j < MOST; j++) {
                const Record schema = schema_of(2, loose, WITHOUT), asked = numbered(words, query, i, j);
                const int row = (int)(100 * loose) + 10 * i + j;
                decided(schema, asked, empty_class, i == j && loose == 0, "two constants of a mark", row);
                decided(schema, asked, meeting, i == j, "two constants of a mark as one value", row);
            }
}

/* Each of five values is any of the four marks: two of them are sure to be one object exactly if they are one mark. */
static void every_map(void)
{
    uint16_t words[BIKUVOA_MAX_CONCEPT_WORDS], view_words[BIKUVOA_MAX_CONCEPT_WORDS];
    const Record schema = schema_of(0, 0, WITHOUT);
    for (unsigned map = 0; map < 1024; map++) {
        bikuvoa_concept query = bikuvoa_start_concept(words, BIKUVOA_MAX_CONCEPT_WORDS);
        for (uint16_t p = 0; p < 5; p++) {
            bikuvoa_empty(&query);
            bikuvoa_mark(&query, map >> 2 * p & 3);
            bikuvoa_forward(&query, p);
            bikuvoa_reached(&query);
            if (p) bikuvoa_both(&query);
        }
        for (uint16_t p = 0; p < 5; p++)
            for (uint16_t q = 0; q < p; q++)
                decided(schema, (Record){query.length, words}, concept_in(view_words, (Tokens)TOKENS(MEETING(p, q))),
                        (map >> 2 * p & 3) == (map >> 2 * q & 3), "five values", (int)(100 * map) + 10 * p + q);
    }
}

/* One mark at twenty places, in 64 tokens: four at the start, and one after each of sixteen steps along P. The first eleven of
 * these have a class each, and one of them, or none, has another mark. */
enum { STEPS = 16, CLASSED = 11, NO_PLACE = CLASSED };

static Record twenty_places(size_t other)
{
    static uint16_t words[BIKUVOA_MAX_CONCEPT_WORDS];
    bikuvoa_concept query = bikuvoa_start_concept(words, BIKUVOA_MAX_CONCEPT_WORDS);
    bikuvoa_empty(&query);
    for (size_t i = 0; i < STEPS; i++) {
        bikuvoa_mark(&query, i == other ? 3 : 1);
        if (i < CLASSED) {
            bikuvoa_class(&query, i);
            bikuvoa_both(&query);
        }
        bikuvoa_forward(&query, P);
    }
    bikuvoa_reached(&query);
    for (int i = 0; i < 4; i++) {
        bikuvoa_mark(&query, 1);
        bikuvoa_both(&query);
    }
    return (Record){query.length, words};
}

/* The start has the classes of all its places, and is one of its values; but not the class of the place with the other mark. */
static void many_places(void)
{
    uint16_t words[BIKUVOA_CONCEPT_WORDS(6)];
    const Record schema = schema_of(0, 0, WITHOUT);
    for (size_t other = 0; other <= NO_PLACE; other++)
        for (uint16_t a = 0; a < CLASSED; a++) {
            const uint16_t b = (uint16_t)((a + 1) % CLASSED);
            const Record query = twenty_places(other);
            const Tokens value = TOKENS(VALUE(P, CLASS(a), CLASS(b), BOTH));
            const int row = (int)(100 * other) + a;
            check(query.at[BIKUVOA_AT_TOKENS] == 64, "64 tokens", row);
            decided(schema, query, concept_in(words, (Tokens)TOKENS(CLASS(a))), a != other, "a class of twenty places", row);
            decided(schema, query, concept_in(words, value), a != other && b != other, "classes of twenty places", row);
        }
}

/* A mark that stands at one place asks for nothing: with everything in its place the verdict is the same. */
static const struct {
    const char *what;
    int axioms;
    Tokens query, view;
    int held;
} ONCE[] = {
    {"alone, by everything", WITHOUT, TOKENS(MARK(0)), TOKENS(EVERYTHING), 1},
    {"alone, by a class", WITHOUT, TOKENS(MARK(0)), TOKENS(CLASS(A)), 0},
    {"beside a class", WITHOUT, TOKENS(CLASS(A), MARK(0), BOTH), TOKENS(CLASS(A)), 1},
    {"beside a class that needs a value", NEEDED, TOKENS(MARK(0), CLASS(A), BOTH), TOKENS(VALUE(P, EVERYTHING)), 1},
    {"a value", WITHOUT, TOKENS(VALUE(P, MARK(0))), TOKENS(VALUE(P, EVERYTHING)), 1},
    {"a value, by an own value", WITHOUT, TOKENS(VALUE(P, MARK(0))), TOKENS(OWN_VALUE(P)), 0},
    {"a value of an axiom's class", TYPED, TOKENS(VALUE(Q, MARK(0))), TOKENS(VALUE(Q, CLASS(B))), 1},
    {"after a step back", WITHOUT, TOKENS(EMPTY, MARK(0), BACKWARD(P), REACHED), TOKENS(VALUE(P, EVERYTHING)), 0},
    {"a common value", WITHOUT, TOKENS(EMPTY, MARK(0), FORWARD(P), EMPTY, ANY(Q), COMMON), TOKENS(MEETING(Q, P)), 1},
    {"two values", WITHOUT, TOKENS(VALUE(P, MARK(0)), VALUE(Q, EVERYTHING), BOTH), TOKENS(MEETING(P, Q)), 0},
    {"the one value", SINGLE, TOKENS(CLASS(A), VALUE(P, MARK(0), CLASS(B), BOTH), VALUE(P, CLASS(C)), BOTH, BOTH),
     TOKENS(VALUE(P, CLASS(C), CLASS(B), BOTH)), 1},
};

static Record without_marks(uint16_t *words, Tokens tokens)
{
    Record query = concept_in(words, tokens);
    for (size_t t = BIKUVOA_CONCEPT_SIZES; t < BIKUVOA_CONCEPT_SIZES + tokens.n; t++)
        if (words[t] == BIKUVOA_MARK) words[t] = BIKUVOA_EVERYTHING;
    return query;
}

static void one_place(void)
{
    uint16_t words[BIKUVOA_MAX_CONCEPT_WORDS];
    for (int row = 0; row < (int)(sizeof ONCE / sizeof *ONCE); row++) {
        const Record schema = schema_of(0, 0, ONCE[row].axioms), view = concept_of(ONCE[row].view);
        verdict(schema, without_marks(words, ONCE[row].query), view, ONCE[row].held, ONCE[row].what, row);
        check(ONCE[row].held || are_chosen(0), "no mark in the written state", row);
        for (uint16_t k = 0; k < MOST; k++)
            decided(schema, numbered(words, ONCE[row].query, k, k), view, ONCE[row].held, ONCE[row].what, 100 * k + row);
    }
}

int main(void)
{
    make_records();
    where_marks_stand();
    all_faults();
    names();
    facts_of_marks();
    faulty_facts();
    facts_without_use();
    most_facts();
    lent_words();
    every_object();
    every_choice();
    two_places();
    several_marks();
    constants_of_a_mark();
    every_map();
    many_places();
    one_place();
    printf("marks from C: %d checks passed\n", passed);
    return 0;
}
