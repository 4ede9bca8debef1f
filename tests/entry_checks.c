/* The checks of a concept, of a query and of a view: the refusals of one record at a time, and what concepts name. */
#include "calls.h"
#include "check.h"
#include "faulty.h"
#include "rings.h"
#include "sets.h"
#include "small.h"

static int call_check_concept(const Record *r, Room room)
{
    return bikuvoa_check_concept(r[SCHEMA].at, r[SCHEMA].words, r[QUERY].at, r[QUERY].words, room.classes, room.attributes,
                                 room.outs);
}

static int call_check_query(const Record *r, Room room)
{
    return bikuvoa_check_query(r[SCHEMA].at, r[SCHEMA].words, r[QUERY].at, r[QUERY].words, room.classes, room.attributes,
                               room.outs);
}

static int call_check_view(const Record *r, Room room)
{
    return bikuvoa_check_view(r[SCHEMA].at, r[SCHEMA].words, r[VIEW].at, r[VIEW].words, room.classes, room.attributes,
                              room.outs);
}

/* One record at a time, and so whose refusal it is. */
static void one_at_a_time(void)
{
    const Record x = schema_x, seven = chain(BIKUVOA_VIEW_STEPS + 1);
    check(bikuvoa_query_refusal(x.at, x.words, seven.at, seven.words) == BIKUVOA_ACCEPTED, "a query of seven steps", 0);
    check(bikuvoa_concept_refusal(x.at, x.words, seven.at, seven.words) == BIKUVOA_ACCEPTED, "seven steps by themselves", 0);
    check(bikuvoa_view_refusal(x.at, x.words, seven.at, seven.words) == BIKUVOA_BAD_STEPS, "a view of seven steps", 0);
    check(bikuvoa_view_refusal(x.at, x.words, person.at, person.words) == BIKUVOA_ACCEPTED, "a view", 0);
    check(bikuvoa_query_refusal(x.at, x.words, NULL, 0) == BIKUVOA_BAD_CONCEPT_SHAPE, "no query", 0);
    check(bikuvoa_concept_refusal(x.at, x.words, NULL, 0) == BIKUVOA_BAD_CONCEPT_SHAPE, "no concept", 0);
    check(bikuvoa_view_refusal(x.at, x.words, NULL, 0) == BIKUVOA_BAD_CONCEPT_SHAPE, "no view", 0);
    for (int n = 0; refusal_of(QUERY, n); n++) {
        Record bad = faulty_at(QUERY, n, 0);
        int number = refusal_of(QUERY, n);
        check(bikuvoa_query_refusal(x.at, x.words, bad.at, bad.words) == number, "a faulty query", n);
        check(bikuvoa_concept_refusal(x.at, x.words, bad.at, bad.words) == number, "a faulty concept", n);
        check(bikuvoa_view_refusal(x.at, x.words, bad.at, bad.words) == number, "a faulty view", n);
    }
    check(bikuvoa_schema_refusal(x.at, x.words) == BIKUVOA_ACCEPTED, "a schema", 0);
    check(bikuvoa_schema_refusal(NULL, 0) == BIKUVOA_BAD_SCHEMA_SHAPE, "no schema", 0);
    for (int n = 0; refusal_of(SCHEMA, n); n++) {
        Record bad = faulty_at(SCHEMA, n, 0);
        int number = refusal_of(SCHEMA, n);
        check(bikuvoa_schema_refusal(bad.at, bad.words) == number, "a faulty schema", n);
        check(bikuvoa_query_refusal(bad.at, bad.words, person.at, person.words) == number, "its query", n);
        check(bikuvoa_concept_refusal(bad.at, bad.words, person.at, person.words) == number, "its concept", n);
        check(bikuvoa_view_refusal(bad.at, bad.words, person.at, person.words) == number, "its view", n);
    }
}

/* Names. */

static Record all_declared, all_mentioned;

/* Axioms of every kind, which mention every class and every attribute. */
static Record mentioning_all(void)
{
    size_t words = BIKUVOA_SCHEMA_WORDS(24 + 4 * 8);
    bikuvoa_schema schema = bikuvoa_start_schema(take(words), words, 24, 8, 4);
    for (size_t a = 0; a < 24; a++) bikuvoa_subclass(&schema, a, 23 - a);
    for (size_t p = 0; p < 8; p++) {
        bikuvoa_typing(&schema, 0, p, 1);
        bikuvoa_necessary(&schema, 2, p);
        bikuvoa_single(&schema, 3, p);
        bikuvoa_relates(&schema, p, 4, 5);
    }
    return (Record){schema.length, schema.words};
}

typedef struct {
    uint32_t classes, attributes;
    uint64_t count;
} Named;

static const Named UNALTERED = {UNTOUCHED_SET, UNTOUCHED_SET, UNTOUCHED_OUT};

/* What a check returns, and its out values then. */
static void checked(int entry, const Record *r, int returned, Named then, const char *what, int row)
{
    uint64_t outs[3] = {97, UNTOUCHED_OUT, 99};
    clear_sets();
    check(call(entry, r, NULL, outs + 1) == returned, what, 10 * row + entry);
    check(sets_are(then.classes, then.attributes) && outs[1] == then.count, what, 10 * row + entry);
    check(outs[0] == 97 && outs[2] == 99, "beside the count of names", 10 * row + entry);
}

/* Each check says that the concept names just this, whatever the axioms mention, but refuses it where it has too many steps. */
static void names(Record concept, Named named, const char *what, int row)
{
    for (int entry = CHECK_CONCEPT; entry <= CHECK_VIEW; entry++) {
        int most = entry == CHECK_VIEW ? 6 : 16, returned = concept.at[BIKUVOA_AT_STEPS] <= most ? 0 : BIKUVOA_BAD_STEPS;
        Named then = returned ? UNALTERED : named;
        checked(entry, ON(all_declared, concept, concept), returned, then, what, row);
        checked(entry, ON(all_mentioned, concept, concept), returned, then, what, row);
    }
}

/* Each check refuses the concept with this number. */
static void refused(Record schema, Record concept, int number, const char *what, int row)
{
    for (int entry = CHECK_CONCEPT; entry <= CHECK_VIEW; entry++)
        checked(entry, ON(schema, concept, concept), number, UNALTERED, what, row);
}

static const struct {
    Tokens tokens;
    Named named;
} NAMES[] = {
    {TOKENS(EVERYTHING), {0, 0, 0}},
    {TOKENS(EMPTY, REACHED), {0, 0, 0}},
    {TOKENS(CLASS(5), CLASS(5), BOTH), {BIT(5), 0, 1}},
    {TOKENS(CLASS(23), CLASS(0), BOTH, CLASS(23), BOTH), {BIT(0) | BIT(23), 0, 2}},
    {TOKENS(CONSTANT(3), CLASS(2), BOTH, CONSTANT(1), BOTH), {BIT(2), 0, 1}},
    {TOKENS(EMPTY, CLASS(9), FORWARD(5), REACHED), {BIT(9), BIT(5), 1}},
    {TOKENS(EMPTY, CONSTANT(0), BACKWARD(7), REACHED), {0, BIT(7), 0}},
    {TOKENS(EMPTY, CLASS(9), FORWARD(5), CLASS(23), BACKWARD(7), REACHED), {BIT(9) | BIT(23), BIT(5) | BIT(7), 2}},
    {TOKENS(EMPTY, EMPTY, CLASS(11), BACKWARD(6), REACHED, FORWARD(1), REACHED), {BIT(11), BIT(1) | BIT(6), 1}},
    {TOKENS(EMPTY, CLASS(3), FORWARD(0), EMPTY, CLASS(22), BACKWARD(7), COMMON), {BIT(3) | BIT(22), BIT(0) | BIT(7), 2}},
    {TOKENS(CLASS(17), EMPTY, CLASS(17), FORWARD(4), CLASS(16), BACKWARD(4), EMPTY, COMMON, BOTH),
     {BIT(16) | BIT(17), BIT(4), 2}},
    {TOKENS(EMPTY, EVERYTHING, BACKWARD(2), REACHED, CLASS(2), BOTH, CONSTANT(2), BOTH), {BIT(2), BIT(2), 1}},
};

static void small_concepts(void)
{
    for (int row = 0; row < (int)(sizeof NAMES / sizeof *NAMES); row++)
        names(concept_of(NAMES[row].tokens), NAMES[row].named, "names", row);
    for (uint16_t k = 0; k < 4; k++) names(concept_of((Tokens)TOKENS(CONSTANT(k))), (Named){0, 0, 0}, "a constant", k);
}

/* Every one of these classes, and everything. */
static Record classes_of(uint32_t set)
{
    static uint16_t words[BIKUVOA_MAX_CONCEPT_WORDS];
    bikuvoa_concept c = bikuvoa_start_concept(words, BIKUVOA_MAX_CONCEPT_WORDS);
    bikuvoa_everything(&c);
    for (size_t a = 0; a < 24; a++) {
        if (!has(set, a)) continue;
        bikuvoa_class(&c, a);
        bikuvoa_both(&c);
    }
    return (Record){c.length, c.words};
}

/* Each class alone, beside each other, and left out. */
static void class_sets(void)
{
    const uint32_t all = BIT(24) - 1;
    for (uint16_t a = 0; a < 24; a++) {
        names(concept_of((Tokens)TOKENS(CLASS(a))), (Named){BIT(a), 0, 1}, "one class", a);
        names(classes_of(all & ~BIT(a)), (Named){all & ~BIT(a), 0, 23}, "all classes but one", a);
        for (uint16_t b = 0; b < a; b++)
            names(classes_of(BIT(a) | BIT(b)), (Named){BIT(a) | BIT(b), 0, 2}, "two classes", 100 * a + b);
    }
    names(classes_of(all), (Named){all, 0, 24}, "all classes", 0);
}

/* Each attribute alone, both ways, and after each. */
static void attribute_sets(void)
{
    for (uint16_t p = 0; p < 8; p++) {
        const Named alone = {0, BIT(p), 0};
        names(concept_of((Tokens)TOKENS(EMPTY, EVERYTHING, FORWARD(p), REACHED)), alone, "forward", p);
        names(concept_of((Tokens)TOKENS(EMPTY, EVERYTHING, BACKWARD(p), REACHED)), alone, "backward", p);
        for (uint16_t q = 0; q < 8; q++) {
            Record two = concept_of((Tokens)TOKENS(EMPTY, EVERYTHING, FORWARD(p), EVERYTHING, BACKWARD(q), REACHED));
            names(two, (Named){0, BIT(p) | BIT(q), 0}, "forward and backward", 10 * p + q);
        }
    }
}

/* All classes, the first of them where steps land, and as many attributes as steps, from that one on. */
static Record all_classes(size_t attribute, size_t steps)
{
    static uint16_t words[BIKUVOA_MAX_CONCEPT_WORDS];
    bikuvoa_concept c = bikuvoa_start_concept(words, BIKUVOA_MAX_CONCEPT_WORDS);
    bikuvoa_empty(&c);
    for (size_t i = 0; i < steps; i++) {
        bikuvoa_class(&c, i);
        bikuvoa_token(&c, i % 2 ? BIKUVOA_BACKWARD : BIKUVOA_FORWARD, (attribute + i) % 8);
    }
    bikuvoa_reached(&c);
    for (size_t a = steps; a < 24; a++) {
        bikuvoa_class(&c, a);
        bikuvoa_both(&c);
    }
    return (Record){c.length, c.words};
}

/* Up to a step more than a query may have. */
static void steps_with_names(void)
{
    for (size_t steps = 0; steps <= 17; steps++) {
        names(chain((int)steps), (Named){0, steps > 0, 0}, "steps of one attribute", (int)steps);
        for (size_t p = 0; p < 8; p++) {
            Named named = {BIT(24) - 1, 0, 24};
            for (size_t i = 0; i < steps; i++) named.attributes |= BIT((p + i) % 8);
            names(all_classes(p, steps), named, "all classes and some attributes", (int)(10 * steps + p));
        }
    }
}

/* So many tokens, every other one a class, in turn. */
static Record long_concept(size_t tokens)
{
    static uint16_t words[BIKUVOA_CONCEPT_WORDS(BIKUVOA_MAX_TOKENS + 1)];
    bikuvoa_concept c = bikuvoa_start_concept(words, sizeof words / sizeof *words);
    if (tokens % 2) {
        bikuvoa_everything(&c);
    } else {
        bikuvoa_empty(&c);
        bikuvoa_reached(&c);
    }
    for (size_t i = 0; i < (tokens - 1) / 2; i++) {
        bikuvoa_class(&c, i % 24);
        bikuvoa_both(&c);
    }
    return (Record){c.length, c.words};
}

/* Every number of tokens, one too many, and every length that does not fit. */
static void lengths(void)
{
    for (size_t tokens = 1; tokens <= 64; tokens++) {
        size_t count = (tokens - 1) / 2 < 24 ? (tokens - 1) / 2 : 24;
        names(long_concept(tokens), (Named){BIT(count) - 1, 0, count}, "tokens", (int)tokens);
    }
    refused(all_declared, long_concept(65), BIKUVOA_BAD_CONCEPT_SHAPE, "65 tokens", 0);
    Record longest = long_concept(64);
    for (size_t words = 0; words <= longest.words + 1; words++)
        if (words != longest.words)
            refused(all_declared, (Record){words, longest.at}, BIKUVOA_BAD_CONCEPT_SHAPE, "a length", (int)words);
}

/* Refused though a set of so many bits would have room, or though fewer bits of the number would be declared. */
static void undeclared_names(void)
{
    static const uint16_t NUMBERS_PAST[] = {24, 31, 32, 55, 256, 65535};
    for (uint16_t n = 0; n < 24; n++)
        refused(declaring(n, 8, 4), concept_of((Tokens)TOKENS(CLASS(n))), BIKUVOA_BAD_TOKEN, "past the last class", n);
    for (uint16_t n = 0; n < 8; n++) {
        Record forward = concept_of((Tokens)TOKENS(EMPTY, EVERYTHING, FORWARD(n), REACHED));
        Record backward = concept_of((Tokens)TOKENS(EMPTY, EVERYTHING, BACKWARD(n), REACHED));
        refused(declaring(24, n, 4), forward, BIKUVOA_BAD_TOKEN, "forward past the last attribute", n);
        refused(declaring(24, n, 4), backward, BIKUVOA_BAD_TOKEN, "backward past the last attribute", n);
    }
    for (size_t i = 0; i < sizeof NUMBERS_PAST / sizeof *NUMBERS_PAST; i++) {
        uint16_t n = NUMBERS_PAST[i];
        Record forward = concept_of((Tokens)TOKENS(EMPTY, EVERYTHING, FORWARD(n), REACHED));
        refused(all_declared, concept_of((Tokens)TOKENS(CLASS(n))), BIKUVOA_BAD_TOKEN, "no class", n);
        refused(all_declared, forward, BIKUVOA_BAD_TOKEN, "no attribute", n);
    }
}

/* Sorts that are not in the table, also some that cut to a byte would be, and arguments where none is taken. */
static const Tokens FAULTY[] = {
    TOKENS({0, 0}), TOKENS({BIKUVOA_MARK + 1, 0}), TOKENS({256 + BIKUVOA_CLASS, 0}), TOKENS({256 + BIKUVOA_MARK, 0}),
    TOKENS({65535, 0}), TOKENS({BIKUVOA_EVERYTHING, 1}), TOKENS({BIKUVOA_EMPTY, 1}, REACHED),
    TOKENS(EMPTY, {BIKUVOA_REACHED, 1}), TOKENS(EVERYTHING, EVERYTHING, {BIKUVOA_BOTH, 1}),
    TOKENS(EMPTY, EMPTY, {BIKUVOA_COMMON, 1}),
};

static void faulty_tokens(void)
{
    for (int row = 0; row < (int)(sizeof FAULTY / sizeof *FAULTY); row++)
        refused(all_declared, concept_of(FAULTY[row]), BIKUVOA_BAD_TOKEN, "a faulty token", row);
}

/* Every choice among seven faults, bit i for the i-th of the checks: the first is returned. */
static void several_faults(void)
{
    static const int IN_ORDER[] = {1, 14, 2, 3, 4, 5, 6};
    for (int faults = 1; faults < 128; faults++) {
        uint16_t schema_words[BIKUVOA_SCHEMA_WORDS(1)], words[BIKUVOA_CONCEPT_WORDS(2)];
        bikuvoa_schema schema = bikuvoa_start_schema(schema_words, BIKUVOA_SCHEMA_WORDS(1), 2, 0, 0);
        bikuvoa_concept c = bikuvoa_start_concept(words, BIKUVOA_CONCEPT_WORDS(2));
        int first = 0;
        while (!(faults >> first & 1)) first++;
        if (faults & 2) bikuvoa_loose(&schema, 0);
        bikuvoa_subclass(&schema, 0, faults & 4 ? 2 : 1);
        if (faults & 32) bikuvoa_both(&c);
        bikuvoa_class(&c, faults & 16 ? 2 : 1);
        if (faults & 64) words[BIKUVOA_AT_STEPS] = 1;
        refused((Record){schema.length - (faults & 1), schema_words}, (Record){c.length - (faults & 8 ? 1 : 0), words},
                IN_ORDER[first], "the first of several faults", faults);
    }
}

static void test_checks(void)
{
    all_declared = declaring(24, 8, 4);
    all_mentioned = mentioning_all();
    one_at_a_time();
    small_concepts();
    class_sets();
    attribute_sets();
    steps_with_names();
    lengths();
    undeclared_names();
    faulty_tokens();
    several_faults();
}

const Entry entry_check_concept = {
    .name = "check of a concept",
    .takes = {[SCHEMA] = 1, [QUERY] = 1},
    .call = call_check_concept,
    .test = test_checks,
};

const Entry entry_check_query = {
    .name = "check of a query",
    .takes = {[SCHEMA] = 1, [QUERY] = 1},
    .takes_marks = 1,
    .call = call_check_query,
    .test = test_checks,
};

const Entry entry_check_view = {
    .name = "check of a view",
    .takes = {[SCHEMA] = 1, [VIEW] = 1},
    .call = call_check_view,
    .test = test_checks,
};
