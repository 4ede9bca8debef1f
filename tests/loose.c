/* Loose constants, called from C through include/bikuvoa.h: which loose words each entry refuses, and before what; which
 * constants may name one object in a state; and the verdicts, by hand, where a query or an axiom makes them one object. What a
 * catalogue makes of them is in catalogue.c. Not proved; it prints how many checks passed. */
#include "refused.h"
#include "sets.h"
#include "verdict.h"
#include <stdio.h>
#include <string.h>

enum { MOST = BIKUVOA_MAX_CONSTANTS, SUBSETS = 1 << MOST };
enum { A, B, C, CLASSES };
enum { P, Q, ATTRIBUTES };

/* Sets of constants, or of objects. */

static int count(unsigned set)
{
    int ones = 0;
    for (; set; set &= set - 1) ones++;
    return ones;
}

/* Two of the constants are not loose, and so cannot name one object. */
static int clash(unsigned set, unsigned loose)
{
    return count(set & ~loose) > 1;
}

/* Calls that are accepted, but for what is to be tried. */

static Record everything, one_view, constant[MOST];

static void make_records(void)
{
    size_t words = BIKUVOA_CATALOGUE_SIZES(1) + BIKUVOA_CONCEPT_WORDS(1);
    bikuvoa_views views = bikuvoa_start_views(take(words), words);
    everything = concept_of((Tokens)TOKENS(EVERYTHING));
    bikuvoa_view(&views, everything.at, everything.words);
    one_view = (Record){views.length, views.words};
    for (uint16_t k = 0; k < MOST; k++) constant[k] = concept_of((Tokens)TOKENS(CONSTANT(k)));
}

/* Constant k names each object of the set named[k], and object d has d + 1 values of P. */
static Record state_of(size_t objects, size_t constants, const unsigned *named)
{
    static uint16_t words[BIKUVOA_STATE_WORDS(100)];
    bikuvoa_state state = bikuvoa_start_state(words, BIKUVOA_STATE_WORDS(100), objects);
    for (size_t d = 0; d < objects; d++) {
        for (size_t k = 0; k < constants; k++)
            if (has(named[k], d)) bikuvoa_name(&state, k, d);
        for (size_t e = 0; e <= d; e++) bikuvoa_pair(&state, P, d, e);
    }
    return (Record){state.length, state.words};
}

/* Each constant names an object of its own. */
static void around(Record *r, Record schema, size_t constants)
{
    static const unsigned APART[MOST] = {BIT(0), BIT(1), BIT(2), BIT(3)};
    const Record state = state_of(MOST, constants, APART), good[PLACES] = {
        schema, everything, everything, state, WORDS(BIKUVOA_DECIDE_WORDS), NUMBER(P), one_view, WORDS(BIKUVOA_MAX_VIEWS)};
    memcpy(r, good, sizeof good);
}

/* Refusal 14, and what comes before and after it. */

/* Every loose word: refused exactly if it has a bit at or above the number of constants. */
static void loose_words(void)
{
    for (size_t n = 0; n <= MOST; n++) {
        uint16_t words[] = {CLASSES, ATTRIBUTES, (uint16_t)n, 0, 0};
        Record r[PLACES];
        around(r, (Record){5, words}, n);
        for (int entry = 0; entry < ENTRIES; entry++) {
            int row = (int)(1000000 * n) + 100000 * entry;
            clear();
            for (unsigned loose = BIT(n); loose <= 65535; loose++) {
                words[4] = (uint16_t)loose;
                refused(entry, r, 14, "a constant that is not declared", row + (int)loose);
            }
            check(unaltered(), "refused by the loose word", row);
            for (unsigned loose = 0; loose < BIT(n); loose++) {
                words[4] = (uint16_t)loose;
                accepted(entry, r, "declared constants", row + (int)loose);
            }
        }
    }
}

/* Whatever the loose word is, a size above its limit is refused as such. */
static void sizes(void)
{
    static const uint16_t ABOVE[][4] = {{25, 0, 0, 0}, {0, 9, 0, 0}, {0, 0, 5, 0}, {0, 0, 15, 0}, {0, 0, 16, 0}, {0, 0, 17, 0},
                                        {0, 0, 64, 0}, {0, 0, 65535, 0}, {0, 0, 0, 97}};
    uint16_t words[BIKUVOA_SCHEMA_WORDS(97)] = {0};
    Record r[PLACES];
    clear();
    for (int row = 0; row < (int)(sizeof ABOVE / sizeof *ABOVE); row++) {
        memcpy(words, ABOVE[row], sizeof ABOVE[row]);
        around(r, (Record){5 + 2 * (size_t)ABOVE[row][3], words}, 0);
        for (int k = 0; k <= 17; k++) {
            words[4] = (uint16_t)(k < 16 ? BIT(k) : k == 16 ? 0 : 65535);
            for (int entry = 0; entry < ENTRIES; entry++)
                refused(entry, r, 1, "a size above its limit", 10000 * row + 100 * k + entry);
        }
    }
    check(unaltered(), "refused by a size", 0);
}

/* Lengths beside that of five sizes, and records of four sizes with any number of axioms: their length is even, and so never
 * fits. */
static void lengths(void)
{
    uint16_t words[4 + 2 * 96] = {CLASSES, ATTRIBUTES, MOST};
    Record r[PLACES], least = declaring(CLASSES, ATTRIBUTES, MOST);
    clear();
    for (int entry = 0; entry < ENTRIES; entry++) {
        around(r, least, MOST);
        for (r[SCHEMA].words = 0; r[SCHEMA].words <= 8; r[SCHEMA].words++)
            if (r[SCHEMA].words != 5) refused(entry, r, 1, "not five words", 10 * entry + (int)r[SCHEMA].words);
        for (uint16_t n = 0; n <= 96; n++) {
            words[3] = n;
            for (int i = 0; i < n; i++) {
                words[4 + i] = 256 * BIKUVOA_SUBCLASS + A;
                words[4 + n + i] = A;
            }
            r[SCHEMA] = (Record){4 + 2 * (size_t)n, words};
            refused(entry, r, 1, "four sizes", 100 * entry + n);
        }
    }
    check(unaltered(), "refused by a length", 0);
    for (int entry = 0; entry < ENTRIES; entry++) {
        around(r, least, MOST);
        accepted(entry, r, "five words", entry);
    }
}

/* Every choice among faults of 1, of 14, of 2 and of all that follows the schema: the first is returned. */
static void several_faults(void)
{
    clear();
    for (int entry = 0; entry < ENTRIES; entry++) {
        const int next = takes(entry, QUERY) || takes(entry, VIEW) ? 3 : takes(entry, STATE) ? 7 : 13;
        for (int faults = 1; faults < 16; faults++) {
            const uint16_t words[] = {CLASSES, ATTRIBUTES, 2, 1, faults & 2 ? 5 : 1, faults & 4 ? 6 * 256 : 256, 0};
            const int number = faults & 1 ? 1 : faults & 2 ? 14 : faults & 4 ? 2 : next;
            Record r[PLACES];
            around(r, (Record){faults & 1 ? 6 : 7, words}, 2);
            for (int p = SCHEMA + 1; faults & 8 && p < PLACES; p++) r[p] = (Record)NONE;
            refused(entry, r, number, "the first of several faults", 100 * entry + faults);
        }
    }
    check(unaltered(), "refused by the first of several faults", 0);
}

/* Refusal 10. */

/* Each constant names one object, and two that are not loose never the same. */
static int are_names(unsigned loose, size_t constants, const unsigned *named)
{
    for (size_t a = 0; a < constants; a++) {
        if (count(named[a]) != 1) return 0;
        for (size_t b = 0; b < a; b++)
            if (named[a] == named[b] && clash(BIT(a) | BIT(b), loose)) return 0;
    }
    return 1;
}

/* What the entries answer of two constants, perhaps of one object. */
static void judged(Record schema, Record state, size_t a, size_t b, const unsigned *named, int row)
{
    const Record *r = ON(schema, constant[a], constant[b], state, WORDS(MOST), NUMBER(P));
    uint16_t flags[MOST] = {0};
    uint64_t out = 99;
    unsigned selected = 0;
    check(call(SELECT, r, flags, &out) == 0 && out == 1, "one object", row);
    for (size_t d = 0; d < MOST; d++) selected |= flags[d] ? BIT(d) : 0;
    check(selected == named[a], "the object of a constant", row);
    check(call(LEGAL, r, NULL, &out) == 0 && out == 0, "legal", row);
    check(call(COUNTEREXAMPLE, r, NULL, &out) == 0, "a counterexample", row);
    check(named[a] == named[b] ? out == 0 : BIT(out) == 2 * named[a], "in a constant and not in another", row);
    for (int entry = LINKS_BY_FIRST; entry <= LINKS_BY_SECOND; entry++)
        check(call(entry, r, NULL, &out) == 0 && BIT(out) == 2 * named[a], "links of a constant", row);
}

/* A state under every loose word. */
static void under_each_word(size_t n, const unsigned *named, Record state, int row)
{
    for (unsigned loose = 0; loose < BIT(n); loose++) {
        const uint16_t words[] = {CLASSES, ATTRIBUTES, (uint16_t)n, 0, (uint16_t)loose};
        const Record schema = {5, words};
        const int good = are_names(loose, n, named);
        for (int entry = 0; entry < ENTRIES; entry++)
            if (!good && takes(entry, STATE))
                refused(entry, ON(schema, everything, everything, state, WORDS(MOST), NUMBER(P)), 10, "names", row);
        for (size_t a = 0; good && a < n; a++)
            for (size_t b = 0; b < n; b++) judged(schema, state, a, b, named, row);
    }
}

/* Every choice of an object for each constant, or of any set of objects. */
static void names(size_t objects, int sets_of_objects)
{
    const size_t ways = sets_of_objects ? BIT(objects) : objects;
    size_t all = 1;
    clear();
    for (size_t n = 0; n <= MOST; n++, all *= ways)
        for (size_t choice = 0; choice < all; choice++) {
            unsigned named[MOST];
            size_t rest = choice;
            for (size_t k = 0; k < n; k++, rest /= ways)
                named[k] = sets_of_objects ? (unsigned)(rest % ways) : BIT(rest % ways);
            under_each_word(n, named, state_of(objects, n, named), (int)(10000 * n + choice));
        }
    check(unaltered(), "refused by the names", 0);
}

/* Verdicts. */

enum { WITHOUT, SINGLE, NEEDED };

/* Four constants, without axioms; or P has at most one value, wherever it has one; or A needs P. */
static Record schema_of(unsigned loose, int axioms)
{
    static uint16_t words[BIKUVOA_SCHEMA_WORDS(2)];
    bikuvoa_schema schema = bikuvoa_start_schema(words, BIKUVOA_SCHEMA_WORDS(2), CLASSES, ATTRIBUTES, MOST);
    if (axioms == SINGLE) {
        bikuvoa_single(&schema, A, P);
        bikuvoa_relates(&schema, P, A, A);
    }
    if (axioms == NEEDED) bikuvoa_necessary(&schema, A, P);
    words[BIKUVOA_AT_LOOSE] = (uint16_t)loose;
    return (Record){schema.length, words};
}

/* The constants are put from the lowest up, or from the highest down. */
static int downward;

static size_t turned(size_t i, size_t n)
{
    return downward ? n - 1 - i : i;
}

static void join(bikuvoa_concept *c, int *several)
{
    if ((*several)++) bikuvoa_both(c);
}

/* What all these constants name. */
static void put_all(bikuvoa_concept *c, unsigned set)
{
    int several = 0;
    for (size_t i = 0; i < MOST; i++) {
        size_t k = turned(i, MOST);
        if (!has(set, k)) continue;
        bikuvoa_constant(c, k);
        join(c, &several);
    }
}

/* One value of P that all these constants name; or a value for each. */
static void put_value(bikuvoa_concept *c, unsigned set)
{
    bikuvoa_empty(c);
    put_all(c, set);
    bikuvoa_forward(c, P);
    bikuvoa_reached(c);
}

static void put_values(bikuvoa_concept *c, unsigned set)
{
    int several = 0;
    for (size_t i = 0; i < MOST; i++) {
        size_t k = turned(i, MOST);
        if (!has(set, k)) continue;
        put_value(c, BIT(k));
        join(c, &several);
    }
}

/* The view of no constants is a class that nothing mentions: it is held only by a query that is empty in every legal state. */
static Record made(uint16_t *words, void (*put)(bikuvoa_concept *, unsigned), unsigned set)
{
    bikuvoa_concept c = bikuvoa_start_concept(words, BIKUVOA_MAX_CONCEPT_WORDS);
    if (set) put(&c, set);
    else bikuvoa_class(&c, B);
    return (Record){c.length, words};
}

/* In the written state all these constants name one object. */
static int are_same(unsigned set)
{
    size_t first = BIKUVOA_MAX_OBJECTS;
    for (size_t i = 0; i < bikuvoa_facts(written); i++) {
        size_t kind = bikuvoa_fact_kind(written, i), object = bikuvoa_fact_object(written, i);
        if (kind < BIKUVOA_CONSTANT_KINDS || !has(set, kind - BIKUVOA_CONSTANT_KINDS)) continue;
        if (first == BIKUVOA_MAX_OBJECTS) first = object;
        if (object != first) return 0;
    }
    return 1;
}

/* Some constants at once, or as values of P, and so as its one value if that is single: asked for some. */
static void sets_of_constants(void)
{
    uint16_t query_words[BIKUVOA_MAX_CONCEPT_WORDS], view_words[BIKUVOA_MAX_CONCEPT_WORDS];
    for (unsigned loose = 0; loose < SUBSETS; loose++)
        for (unsigned in = 1; in < SUBSETS; in++)
            for (unsigned view = 0; view < SUBSETS; view++) {
                const int row = (int)(10000 * loose + 100 * in + view), follows = view && !(view & ~in);
                const int held = follows || clash(in, loose);
                const Record query = made(query_words, put_values, in), value = made(view_words, put_value, view);
                verdict(schema_of(loose, WITHOUT), query, value, follows && count(view) == 1, "values", row);
                verdict(schema_of(loose, SINGLE), query, value, held, "the one value", row);
                if (!held) check(are_same(in), "the constants of one value", row);
                verdict(schema_of(loose, WITHOUT), made(query_words, put_all, in), made(view_words, put_all, view), held,
                        "at once", row);
                if (!held) check(are_same(in), "the constants at once", row);
            }
}

/* Every set of up to five of the pairs of constants: for each pair there is an object whose one value of P is both. So two that
 * are no pair may be the same through others. */

static const uint16_t PAIRS[][2] = {{0, 1}, {0, 2}, {0, 3}, {1, 2}, {1, 3}, {2, 3}};
enum { MOST_PAIRS = sizeof PAIRS / sizeof *PAIRS };

static void put_pairs(bikuvoa_concept *c, unsigned pairs)
{
    int several = 0;
    for (size_t i = 0; i < MOST_PAIRS; i++) {
        size_t pair = turned(i, MOST_PAIRS);
        if (!has(pairs, pair)) continue;
        bikuvoa_empty(c);
        put_values(c, BIT(PAIRS[pair][0]) | BIT(PAIRS[pair][1]));
        bikuvoa_forward(c, Q);
        bikuvoa_reached(c);
        join(c, &several);
    }
}

/* Some object of the pairs has a value of P that all these constants name. */
static void put_in_pairs(bikuvoa_concept *c, unsigned set)
{
    bikuvoa_empty(c);
    put_value(c, set);
    bikuvoa_forward(c, Q);
    bikuvoa_reached(c);
}

/* The constants that the pairs make the same as k. */
static unsigned same_as(size_t k, unsigned pairs)
{
    unsigned same = BIT(k);
    for (int round = 0; round < MOST; round++)
        for (size_t i = 0; i < MOST_PAIRS; i++) {
            unsigned pair = BIT(PAIRS[i][0]) | BIT(PAIRS[i][1]);
            if (has(pairs, i) && same & pair) same |= pair;
        }
    return same;
}

static void pairs_of_constants(void)
{
    uint16_t query_words[BIKUVOA_MAX_CONCEPT_WORDS], view_words[BIKUVOA_MAX_CONCEPT_WORDS];
    for (unsigned pairs = 1; pairs < BIT(MOST_PAIRS) - 1; pairs++)
        for (unsigned view = 0; view < SUBSETS; view++)
            for (unsigned loose = 0; loose < SUBSETS; loose++) {
                const int row = (int)(10000 * pairs + 100 * view + loose);
                int held = 0;
                for (size_t k = 0; k < MOST; k++) {
                    unsigned same = same_as(k, pairs);
                    if (clash(same, loose) || (view && count(same) > 1 && !(view & ~same))) held = 1;
                }
                verdict(schema_of(loose, SINGLE), made(query_words, put_pairs, pairs), made(view_words, put_in_pairs, view),
                        held, "pairs", row);
                for (size_t k = 0; !held && k < MOST; k++) check(are_same(same_as(k, pairs)), "the constants of pairs", row);
            }
}

/* Other shapes, under every loose word: the constants that the query makes the same, two and two, and whether its objects, if
 * it can have any, are in the view. */
#define TWO(a, b) (BIT(a) | BIT(b))
#define VALUE(...) EMPTY, __VA_ARGS__, FORWARD(P), REACHED
#define VALUES_OF_VALUES                                                                                                      \
    TOKENS(VALUE(CONSTANT(0), VALUE(CONSTANT(2)), BOTH), VALUE(CONSTANT(1), VALUE(CONSTANT(3)), BOTH), BOTH)

static const struct {
    const char *what;
    int axioms;
    Tokens query, view;
    unsigned same[2];
    int in_view;
} SHAPES[] = {
    {"values of one value", SINGLE, VALUES_OF_VALUES, TOKENS(CLASS(B)), {TWO(0, 1), TWO(2, 3)}, 0},
    {"values of one value, asked for", SINGLE, VALUES_OF_VALUES,
     TOKENS(EMPTY, EVERYTHING, FORWARD(P), CONSTANT(3), CONSTANT(2), BOTH, FORWARD(P), REACHED), {TWO(0, 1), TWO(2, 3)}, 1},
    {"a value and its value", SINGLE, VALUES_OF_VALUES, TOKENS(VALUE(CONSTANT(0), CONSTANT(2), BOTH)),
     {TWO(0, 1), TWO(2, 3)}, 0},
    {"values of two values", WITHOUT, VALUES_OF_VALUES, TOKENS(VALUE(CONSTANT(0), CONSTANT(1), BOTH)), {0, 0}, 0},
    {"values of a constant", SINGLE, TOKENS(CONSTANT(0), VALUE(CONSTANT(1)), BOTH, VALUE(CONSTANT(2)), BOTH),
     TOKENS(CONSTANT(1)), {TWO(1, 2), 0}, 0},
    {"its own value", WITHOUT, TOKENS(CONSTANT(0), EMPTY, CONSTANT(1), FORWARD(P), EMPTY, COMMON, BOTH), TOKENS(CLASS(B)),
     {TWO(0, 1), 0}, 0},
    {"its own value, asked for", WITHOUT, TOKENS(CONSTANT(0), EMPTY, CONSTANT(1), FORWARD(P), EMPTY, COMMON, BOTH),
     TOKENS(VALUE(CONSTANT(0), CONSTANT(1), BOTH)), {TWO(0, 1), 0}, 1},
    {"a circle of two", WITHOUT,
     TOKENS(CONSTANT(2), EMPTY, CONSTANT(0), FORWARD(P), CONSTANT(1), FORWARD(P), EMPTY, COMMON, BOTH), TOKENS(CLASS(B)),
     {TWO(1, 2), 0}, 0},
    {"a common value", WITHOUT, TOKENS(EMPTY, CONSTANT(1), FORWARD(P), EMPTY, CONSTANT(3), FORWARD(Q), COMMON),
     TOKENS(VALUE(CONSTANT(3))), {TWO(1, 3), 0}, 1},
    {"a value has many, backward", SINGLE,
     TOKENS(EMPTY, CONSTANT(0), BACKWARD(P), REACHED, EMPTY, CONSTANT(1), BACKWARD(P), REACHED, BOTH),
     TOKENS(EMPTY, CONSTANT(0), CONSTANT(1), BOTH, BACKWARD(P), REACHED), {0, 0}, 0},
    {"a needed value", NEEDED, TOKENS(CLASS(A)), TOKENS(VALUE(CONSTANT(1))), {0, 0}, 0},
    {"classes of one value", SINGLE, TOKENS(VALUE(CONSTANT(2), CLASS(B), BOTH), VALUE(CONSTANT(3), CLASS(C), BOTH), BOTH),
     TOKENS(VALUE(CLASS(B), CLASS(C), BOTH)), {TWO(2, 3), 0}, 1},
    {"classes of two values", WITHOUT, TOKENS(VALUE(CONSTANT(2), CLASS(B), BOTH), VALUE(CONSTANT(3), CLASS(C), BOTH), BOTH),
     TOKENS(VALUE(CLASS(B), CLASS(C), BOTH)), {0, 0}, 0},
};

static void shapes(void)
{
    for (int row = 0; row < (int)(sizeof SHAPES / sizeof *SHAPES); row++) {
        const Record query = concept_of(SHAPES[row].query), view = concept_of(SHAPES[row].view);
        const unsigned *same = SHAPES[row].same;
        for (unsigned loose = 0; loose < SUBSETS; loose++) {
            const int held = SHAPES[row].in_view || clash(same[0], loose) || clash(same[1], loose);
            verdict(schema_of(loose, SHAPES[row].axioms), query, view, held, SHAPES[row].what, 100 * row + (int)loose);
            if (!held) check(are_same(same[0]) && are_same(same[1]), SHAPES[row].what, 100 * row + (int)loose);
        }
    }
}

int main(void)
{
    make_records();
    loose_words();
    sizes();
    lengths();
    several_faults();
    names(4, 0);
    names(3, 1);
    for (downward = 0; downward < 2; downward++) {
        sets_of_constants();
        pairs_of_constants();
    }
    shapes();
    printf("loose constants from C: %d checks passed\n", passed);
    return 0;
}
