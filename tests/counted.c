/* The count of class facts, called from C through include/bikuvoa.h: which third words each entry that takes a state accepts, and
 * what is refused before and after them; short records, and such as have two size words; the count that the builder keeps; and
 * the count and the first facts of written states. Not proved; it prints how many checks passed. */
#include "class_facts.h"
#include "largest.h"
#include "refused.h"
#include "sets.h"
#include <stdio.h>
#include <string.h>

enum { A, B, CLASSES = BIKUVOA_MAX_CLASSES };
enum { P, Q, ATTRIBUTES = BIKUVOA_MAX_ATTRIBUTES };
enum { CONSTANTS = BIKUVOA_MAX_CONSTANTS, MARKS = BIKUVOA_MAX_MARKS, OBJECTS = 24, MOST_FACTS = 60 };

/* Calls that are accepted, but for what is to be tried. */

/* Queries that use none of the marks, the first, the first two, .. */
static const Tokens USING[MARKS + 1] = {
    TOKENS(EVERYTHING), TOKENS(MARK(0)), TOKENS(MARK(0), MARK(1), BOTH), TOKENS(MARK(0), MARK(1), BOTH, MARK(2), BOTH),
    TOKENS(MARK(0), MARK(1), BOTH, MARK(2), BOTH, MARK(3), BOTH),
};
static Record query[MARKS + 1], declared[CONSTANTS + 1], two_concepts;

static void make_records(void)
{
    for (size_t n = 0; n <= MARKS; n++) query[n] = concept_of(USING[n]);
    for (size_t n = 0; n <= CONSTANTS; n++) declared[n] = declaring(CLASSES, ATTRIBUTES, n);
    two_concepts = concept_of((Tokens)TOKENS(EVERYTHING, EVERYTHING));
}

/* How many facts of classes, of attributes, of constants and of marks a state has. */
typedef struct {
    size_t classes, pairs, constants, marks;
} Sizes;

/* The first and the last class and attribute are among them in turn. */
static bikuvoa_state state_of(Sizes sizes)
{
    static uint16_t words[BIKUVOA_STATE_WORDS(MOST_FACTS)];
    bikuvoa_state state = bikuvoa_start_state(words, BIKUVOA_STATE_WORDS(MOST_FACTS), OBJECTS);
    for (size_t i = 0; i < sizes.classes; i++) bikuvoa_member(&state, i % 2 ? CLASSES - 1 : A, i);
    for (size_t i = 0; i < sizes.pairs; i++) bikuvoa_pair(&state, i % 2 ? ATTRIBUTES - 1 : P, i, 0);
    for (size_t k = 0; k < sizes.constants; k++) bikuvoa_name(&state, k, k);
    for (size_t k = 0; k < sizes.marks; k++) bikuvoa_choose(&state, k, k);
    return state;
}

static void around(Record *r, Record state, size_t constants, size_t marks)
{
    const Record good[PLACES] = {
        declared[constants], query[marks], query[0], state, WORDS(BIKUVOA_MAX_OBJECTS), NUMBER(P)};
    memcpy(r, good, sizeof good);
}

/* Refusal 15. */

/* Every third word: refused exactly if it is another number than that of the class facts; so also where it counts attributes,
 * constants or marks too, and where it is above the limits of the other sizes. */
static void tried(int entry, bikuvoa_state state, Sizes sizes, int row)
{
    Record r[PLACES];
    around(r, (Record){state.length, state.words}, sizes.constants, sizes.marks);
    clear();
    for (unsigned count = 0; count <= 65535; count++) {
        state.words[BIKUVOA_AT_CLASS_FACTS] = (uint16_t)count;
        if (count != sizes.classes) refused(entry, r, 15, "a false count", row + (int)count);
    }
    check(unaltered(), "refused by the count", row);
    state.words[BIKUVOA_AT_CLASS_FACTS] = (uint16_t)sizes.classes;
    accepted(entry, r, "the count", row);
}

static const Sizes TRIED[] = {{0, 0, 0, 0}, {1, 0, 0, 0}, {24, 0, 0, 0}, {0, 5, 2, 0}, {3, 2, 0, 0}, {2, 0, 3, 0},
                              {24, 10, 4, 0}, {0, 0, 0, 1}, {3, 0, 0, 4}, {24, 10, 4, 4}};

static void every_third_word(void)
{
    for (int row = 0; row < (int)(sizeof TRIED / sizeof *TRIED); row++)
        for (int entry = 0; entry < ENTRIES; entry++)
            if (takes(entry, STATE) && (!TRIED[row].marks || takes_marks(entry)))
                tried(entry, state_of(TRIED[row]), TRIED[row], 10000000 * row + 100000 * entry);
}

/* The largest states: each of 480 objects is in all 24 classes. */
static void largest_counts(void)
{
    static const uint16_t COUNTS[] = {0, 480, 481, 11519, 11521, 15360, 15380, 15384, 15385, 65535};
    for (size_t marks = 0; marks <= MARKS; marks++) {
        bikuvoa_state largest = largest_state(marks);
        Record r[PLACES];
        around(r, (Record){largest.length, largest.words}, CONSTANTS, marks);
        check(bikuvoa_class_facts(largest.words) == 11520, "the builder's count of many", (int)marks);
        for (int entry = 0; entry < ENTRIES; entry++) {
            if (!takes(entry, STATE) || (marks && !takes_marks(entry))) continue;
            accepted(entry, r, "the count of many", entry);
            for (size_t i = 0; i < sizeof COUNTS / sizeof *COUNTS; i++) {
                largest.words[BIKUVOA_AT_CLASS_FACTS] = COUNTS[i];
                refused(entry, r, 15, "a false count of many", COUNTS[i]);
            }
            largest.words[BIKUVOA_AT_CLASS_FACTS] = 11520;
        }
    }
}

/* What is refused before the count and after it: every choice among faults, each in three ways. The first is returned. */

enum {
    BAD_QUERY = 1, BAD_SHAPE = 2, BAD_FACT = 4, BAD_ORDER = 8, BAD_COUNT = 16, BAD_NAMES = 32, BAD_REST = 64, ALL_FAULTS = 128
};

static int number_of(int entry, int faults)
{
    const int rest = takes(entry, LENT) ? 11 : takes(entry, ATTRIBUTE) ? 12 : 0;
    const int in_order[] = {takes(entry, QUERY) ? 5 : 0, 7, 8, 9, 15, 10, rest};
    int first = 0;
    while (first < 6 && !(in_order[first] && faults >> first & 1)) first++;
    return faults >> first & 1 ? in_order[first] : 0;
}

/* A length, 481 objects, or more facts than there are; a kind past the last, an object that is not there, or such a value; a
 * class fact twice, one fewer, or one after all others; a constant or a mark without an object, or with two. */
static bikuvoa_state faulty(int faults, int way, size_t marks)
{
    static const size_t BAD_FACTS[][3] = {{BIKUVOA_FACT_KINDS, 0, 0}, {A, OBJECTS, 0}, {BIKUVOA_ATTRIBUTE_KINDS, 1, OBJECTS}};
    const size_t *bad = BAD_FACTS[way];
    const int names = faults & BAD_NAMES, unnamed = names && way == 0, unchosen = names && way == 1 && marks;
    bikuvoa_state state = state_of((Sizes){3, 2, unnamed ? 1 : 2, unchosen ? marks - 1 : marks});
    if (names && !unnamed && !unchosen) bikuvoa_name(&state, 1, 2);
    if (faults & BAD_FACT) bikuvoa_fact(&state, bad[0] * BIKUVOA_OBJECT_PART + bad[1], bad[2]);
    uint16_t *left = state.words + BIKUVOA_STATE_SIZES, *last = left + bikuvoa_facts(state.words) - 1;
    if (faults & BAD_ORDER && way == 0) left[1] = *left;
    if (faults & BAD_ORDER && way == 1) *left = *last;
    if (faults & BAD_ORDER && way == 2) *last = *left;
    if (faults & BAD_SHAPE && way == 0) state.length--;
    if (faults & BAD_SHAPE && way == 1) state.words[BIKUVOA_AT_OBJECTS] = 481;
    if (faults & BAD_SHAPE && way == 2) state.words[BIKUVOA_AT_FACTS]++;
    return state;
}

static void several_faults(int entry, int faults, int way, size_t marks)
{
    static const uint16_t COUNTS[] = {0, 2, 4, 481, 15385, 65535};
    const int number = number_of(entry, faults), row = 10000 * entry + 10 * faults + way;
    for (size_t i = 0; i < (faults & BAD_COUNT ? sizeof COUNTS / sizeof *COUNTS : 1); i++) {
        bikuvoa_state state = faulty(faults, way, marks);
        Record r[PLACES];
        around(r, (Record){state.length, state.words}, 2, marks);
        if (faults & BAD_QUERY) r[QUERY] = two_concepts;
        if (faults & BAD_COUNT) state.words[BIKUVOA_AT_CLASS_FACTS] = COUNTS[i];
        if (faults & BAD_REST) {
            r[LENT] = (Record)WORDS(OBJECTS - 1);
            r[ATTRIBUTE] = (Record)NUMBER(ATTRIBUTES);
        }
        if (number) refused(entry, r, number, "the first of several faults", row);
        else accepted(entry, r, "no fault", row);
    }
}

/* Only where there is no fault does select write, so that comes last. */
static void all_faults(void)
{
    clear();
    for (int faults = ALL_FAULTS - 1; faults >= 0; faults--) {
        check(faults || unaltered(), "refused by the first of several faults", 0);
        for (int entry = 0; entry < ENTRIES; entry++)
            for (int way = 0; takes(entry, STATE) && way < 3; way++)
                for (size_t marks = 0; marks <= (takes_marks(entry) ? 2 : 0); marks++)
                    several_faults(entry, faults, way, marks);
    }
}

/* Short records. Those of two size words have an even length, which never fits. */

static const struct {
    uint16_t words[5];
    size_t length;
    int number;
} SHORT[] = {
    {{0}, 0, 7}, {{0}, 1, 7}, {{0}, 2, 7}, {{0}, 3, 0}, {{0}, 4, 7}, {{0}, 5, 7}, {{480, 0}, 2, 7}, {{480, 0, 0}, 3, 0},
    {{481, 0, 0}, 3, 7}, {{481, 0, 1}, 3, 7}, {{0, 1, 0}, 3, 7}, {{0, 15385, 0}, 3, 7}, {{0, 65535, 65535}, 3, 7},
    {{0, 0, 1}, 3, 15}, {{480, 0, 480}, 3, 15}, {{480, 0, 481}, 3, 15}, {{0, 0, 15385}, 3, 15}, {{0, 0, 65535}, 3, 15},
    {{1, 1, 0, 0}, 4, 7}, {{1, 1, 1, 0, 0}, 5, 0}, {{1, 1, 0, 0, 0}, 5, 15}, {{1, 1, 2, 0, 0}, 5, 15},
    {{1, 1, 0, 12288, 0}, 5, 0}, {{1, 1, 1, 12288, 0}, 5, 15}, {{1, 0, 1, 0, 0}, 5, 7}, {{1, 1, 0, 1, 0}, 5, 8},
};

/* In every entry that takes a state, without constants. */
static void judged(Record state, int number, const char *what, int row)
{
    Record r[PLACES];
    around(r, state, 0, 0);
    for (int entry = 0; entry < ENTRIES; entry++) {
        if (!takes(entry, STATE)) continue;
        if (number) refused(entry, r, number, what, 10 * row + entry);
        else accepted(entry, r, what, 10 * row + entry);
        check(!number || unaltered(), what, 10 * row + entry);
    }
}

static void lengths(void)
{
    uint16_t words[2 + 2 * OBJECTS] = {OBJECTS};
    for (int row = 0; row < (int)(sizeof SHORT / sizeof *SHORT); row++) {
        clear();
        judged((Record){SHORT[row].length, SHORT[row].words}, SHORT[row].number, "a short record", row);
    }
    clear();
    for (uint16_t n = 0; n <= OBJECTS; n++) {
        for (uint16_t i = 0; i < n; i++) words[2 + i] = i;
        memset(words + 2 + n, 0, n * sizeof *words);
        words[1] = n;
        judged((Record){2 + 2 * (size_t)n, words}, 7, "two size words", n);
    }
}

/* The builder. */

/* Every sequence of six of these facts, and so every order, with repeats. The first three are of classes. */
static const size_t ADDED[][3] = {{0, 2, 0}, {23, 1, 0}, {23, 2, 0}, {24, 0, 1}, {32, 0, 0}, {36, 0, 0}};

static void every_sequence(void)
{
    for (int sequence = 0; sequence < 6 * 6 * 6 * 6 * 6 * 6; sequence++) {
        uint16_t words[BIKUVOA_STATE_WORDS(6)];
        bikuvoa_state state = bikuvoa_start_state(words, BIKUVOA_STATE_WORDS(6), 3);
        unsigned set = 0;
        for (int i = 0, rest = sequence; i < 6; i++, rest /= 6) {
            const size_t *fact = ADDED[rest % 6];
            bikuvoa_fact(&state, fact[0] * BIKUVOA_OBJECT_PART + fact[1], fact[2]);
            set |= BIT(rest % 6);
            check(words[BIKUVOA_AT_CLASS_FACTS] == has(set, 0) + has(set, 1) + has(set, 2) && class_facts_are_first(words),
                  "the builder's count", 10 * sequence + i);
        }
    }
}

/* Each kind by its words, and classes by their number, also where it is no class. */
static void every_kind(void)
{
    for (size_t n = 0; n < 128; n++) {
        uint16_t words[2][BIKUVOA_STATE_WORDS(1)];
        bikuvoa_state by_kind = bikuvoa_start_state(words[0], BIKUVOA_STATE_WORDS(1), 1);
        bikuvoa_state by_class = bikuvoa_start_state(words[1], BIKUVOA_STATE_WORDS(1), 1);
        bikuvoa_fact(&by_kind, n * BIKUVOA_OBJECT_PART, 0);
        bikuvoa_member(&by_class, n, 0);
        check(bikuvoa_class_facts(words[0]) == (n < 24), "a fact of a kind", (int)n);
        check(bikuvoa_class_facts(words[1]) == (n < 24), "a fact of a class", (int)n);
    }
}

/* What finds no room is not counted, nor what comes after it. */
static void little_room(void)
{
    uint16_t words[BIKUVOA_STATE_WORDS(CLASSES)];
    for (size_t room = BIKUVOA_STATE_SIZES; room < BIKUVOA_STATE_WORDS(CLASSES); room++) {
        bikuvoa_state state = bikuvoa_start_state(words, room, 1);
        for (size_t a = CLASSES; a-- > 0;) bikuvoa_member(&state, a, 0);
        check(state.length == 0 && bikuvoa_class_facts(words) == (room - BIKUVOA_STATE_SIZES) / 2, "little room", (int)room);
    }
}

/* Written states. */

static const Tokens ASKED[] = {
    TOKENS(EVERYTHING), TOKENS(CLASS(A)), TOKENS(CLASS(A), CLASS(23), BOTH), TOKENS(CONSTANT(0)), TOKENS(MARK(3)),
    TOKENS(EMPTY, EVERYTHING, FORWARD(P), REACHED), TOKENS(EMPTY, CLASS(23), FORWARD(7), CLASS(A), BACKWARD(P), REACHED),
    TOKENS(EMPTY, CLASS(A), CONSTANT(1), BOTH, FORWARD(Q), MARK(0), FORWARD(P), EMPTY, COMMON),
    TOKENS(MARK(1), EMPTY, MARK(1), CLASS(B), BOTH, FORWARD(Q), MARK(2), BACKWARD(7), REACHED, BOTH),
};
static const Tokens STORED[] = {TOKENS(CLASS(22)), TOKENS(CLASS(B)), TOKENS(EMPTY, CLASS(B), FORWARD(P), REACHED)};
enum { AXIOMS = 5 };

/* Two constants, the second of them loose, and some of five axioms. */
static Record schema_of(unsigned axioms)
{
    static uint16_t words[BIKUVOA_SCHEMA_WORDS(AXIOMS)];
    bikuvoa_schema schema = bikuvoa_start_schema(words, BIKUVOA_SCHEMA_WORDS(AXIOMS), CLASSES, ATTRIBUTES, 2);
    bikuvoa_loose(&schema, 1);
    if (has(axioms, 0)) bikuvoa_subclass(&schema, A, 23);
    if (has(axioms, 1)) bikuvoa_necessary(&schema, A, P);
    if (has(axioms, 2)) bikuvoa_typing(&schema, A, P, B);
    if (has(axioms, 3)) bikuvoa_relates(&schema, Q, A, B);
    if (has(axioms, 4)) bikuvoa_single(&schema, A, P);
    return (Record){schema.length, words};
}

/* The state in the lent words is accepted with its count and with no other. */
static void is_counted(Record schema, Record asked, Record view, int row)
{
    const size_t count = bikuvoa_class_facts(lent), others[] = {count + 1, count - 1, count ? 0 : 24, 65535};
    const Record *r = ON(schema, asked, view, {bikuvoa_state_length(lent), lent});
    check(class_facts_are_first(lent), "the class facts of a written state", row);
    accepted(COUNTEREXAMPLE, r, "a written state", row);
    for (size_t i = 0; i < sizeof others / sizeof *others; i++) {
        lent[BIKUVOA_AT_CLASS_FACTS] = (uint16_t)others[i];
        refused(COUNTEREXAMPLE, r, 15, "a written state with another count", row);
    }
}

static void written_states(void)
{
    int open = 0;
    for (unsigned axioms = 0; axioms < BIT(AXIOMS); axioms++)
        for (size_t q = 0; q < sizeof ASKED / sizeof *ASKED; q++)
            for (size_t v = 0; v < sizeof STORED / sizeof *STORED; v++) {
                uint16_t words[2][BIKUVOA_MAX_CONCEPT_WORDS];
                const Record asked = concept_in(words[0], ASKED[q]), view = concept_in(words[1], STORED[v]);
                const Record schema = schema_of(axioms), *r = ON(schema, asked, view, NONE, WORDS(BIKUVOA_DECIDE_WORDS));
                const int row = (int)(1000 * axioms + 10 * q + v);
                uint64_t outs[2] = {0, 0};
                check(call(DECIDE, r, lent, outs) == 0, "a verdict", row);
                if (outs[0] > 0) is_counted(schema, asked, view, row);
                open += outs[0] > 0;
            }
    check(open > 500, "open verdicts", open);
}

int main(void)
{
    make_records();
    every_third_word();
    largest_counts();
    all_faults();
    lengths();
    every_sequence();
    every_kind();
    little_room();
    written_states();
    printf("class facts from C: %d checks passed\n", passed);
    return 0;
}
