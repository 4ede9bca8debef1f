/* What include/bikuvoa.h has besides the entries: its numbers, texts, verdicts and builders. C89 and C++ alike. The argument
 * is the folder with the rowing club's records, which the builders must write word for word. */
#include "bikuvoa.h"
#include "check.h"
#include <stdio.h>
#include <stdlib.h>
#include <string.h>

#define GUARD 0xBEEF
#define GUARDS 4
#define LARGEST 200

static void numbers(void)
{
    check(BIKUVOA_DECIDE_WORDS == 30771, "the least lent words", 0);
    check(BIKUVOA_MAX_SCHEMA_WORDS == 197 && BIKUVOA_MAX_CONCEPT_WORDS == 130, "the largest schema and concept", 0);
    check(BIKUVOA_MAX_FACTS == BIKUVOA_MAX_OBJECTS * (BIKUVOA_MAX_CLASSES + BIKUVOA_MAX_ATTRIBUTES) + BIKUVOA_QUERY_STEPS
                                   + BIKUVOA_MAX_CONSTANTS + BIKUVOA_MAX_MARKS, "the most facts", 0);
    check(BIKUVOA_ATTRIBUTE_KINDS == 24 && BIKUVOA_CONSTANT_KINDS == 32, "the kinds of attributes and constants", 0);
    check(BIKUVOA_MARK_KINDS == 36 && BIKUVOA_FACT_KINDS == 40 && BIKUVOA_MAX_MARKS == 4, "the kinds of marks", 0);
    check(BIKUVOA_MAX_OBJECTS <= BIKUVOA_OBJECT_PART && BIKUVOA_MAX_CLASSES <= BIKUVOA_BYTE_PART, "parts of words", 0);
    check(BIKUVOA_MAX_CLASSES <= 32 && BIKUVOA_MAX_ATTRIBUTES <= 32, "a bit of a set for each", 0);
    check(BIKUVOA_AT_LOOSE == 4 && BIKUVOA_SCHEMA_SIZES == 5 && BIKUVOA_MAX_CONSTANTS <= 16, "a bit of the loose word", 0);
    check(BIKUVOA_AT_CLASS_FACTS == 2 && BIKUVOA_STATE_SIZES == 3, "the third size of a state", 0);
    check(BIKUVOA_MAX_VIEWS == 16 && BIKUVOA_MAX_CATALOGUE_WORDS == 2097, "the largest catalogue", 0);
    check(BIKUVOA_RELATES == 5 && BIKUVOA_MARK == 10 && BIKUVOA_BAD_CLASS_FACTS == 15, "the last of each list", 0);
    check(BIKUVOA_VERSION >= 100, "the version", 0);
}

static void texts(void)
{
    static const char *const BEGINS[] = {"accepted", "schema: ", "schema: ", "query or view: ", "query or view: ",
                                         "query or view: ", "query or view: ", "state: ", "state: ", "state: ", "state: ",
                                         "lent words: ", "attribute: ", "catalogue: ", "schema: ", "state: "};
    const char *unknown = bikuvoa_refusal_text(65535);
    uint16_t r, q;
    for (r = 0; r <= BIKUVOA_BAD_CLASS_FACTS; r++) {
        check(strncmp(bikuvoa_refusal_text(r), BEGINS[r], strlen(BEGINS[r])) == 0, "the text's record", r);
        check(strcmp(bikuvoa_refusal_text(r), unknown) != 0, "a refusal's text", r);
        for (q = 0; q < r; q++) check(strcmp(bikuvoa_refusal_text(r), bikuvoa_refusal_text(q)) != 0, "a text of its own", r);
    }
    check(strcmp(bikuvoa_refusal_text(r), unknown) == 0, "a number past the last", r);
}

static void verdicts(void)
{
    uint64_t objects = 0;
    uint16_t r;
    check(BIKUVOA_HELD != 0 && BIKUVOA_OPEN != 0 && BIKUVOA_REFUSED != 0, "no verdict is 0", 0);
    check(bikuvoa_verdict_of(0, &objects) == BIKUVOA_HELD, "held", 0);
    for (r = BIKUVOA_BAD_SCHEMA_SHAPE; r <= BIKUVOA_BAD_CLASS_FACTS; r++)
        check(bikuvoa_verdict_of(r, &objects) == BIKUVOA_REFUSED, "refused", r);
    for (objects = 1; objects <= BIKUVOA_MAX_OBJECTS; objects++)
        if (bikuvoa_verdict_of(0, &objects) != BIKUVOA_OPEN) break;
    check(objects == BIKUVOA_MAX_OBJECTS + 1, "open", 0);
    check(bikuvoa_verdict_of(1, &objects) == BIKUVOA_REFUSED, "refused after open", 0);
}

/* The rowing club. */
enum { PERSON, ROWER, STRAP, SESSION, BEAT };
enum { WEARS, RECORDS, DURING, ATTENDS };

static bikuvoa_schema club(uint16_t *words, size_t room)
{
    bikuvoa_schema s = bikuvoa_start_schema(words, room, 5, 4, 0);
    bikuvoa_single(&s, PERSON, WEARS);
    bikuvoa_subclass(&s, ROWER, PERSON);
    bikuvoa_necessary(&s, ROWER, WEARS);
    bikuvoa_relates(&s, WEARS, PERSON, STRAP);
    bikuvoa_necessary(&s, STRAP, RECORDS);
    bikuvoa_relates(&s, RECORDS, STRAP, BEAT);
    bikuvoa_necessary(&s, BEAT, DURING);
    bikuvoa_single(&s, BEAT, DURING);
    bikuvoa_relates(&s, DURING, BEAT, SESSION);
    bikuvoa_relates(&s, ATTENDS, PERSON, SESSION);
    return s;
}

static bikuvoa_concept rowers(uint16_t *words, size_t room)
{
    bikuvoa_concept c = bikuvoa_start_concept(words, room);
    bikuvoa_class(&c, ROWER);
    bikuvoa_empty(&c);
    bikuvoa_class(&c, SESSION);
    bikuvoa_forward(&c, ATTENDS);
    bikuvoa_reached(&c);
    bikuvoa_both(&c);
    return c;
}

static bikuvoa_concept recorded(uint16_t *words, size_t room)
{
    bikuvoa_concept c = bikuvoa_start_concept(words, room);
    bikuvoa_class(&c, PERSON);
    bikuvoa_empty(&c);
    bikuvoa_class(&c, STRAP);
    bikuvoa_forward(&c, WEARS);
    bikuvoa_everything(&c);
    bikuvoa_forward(&c, RECORDS);
    bikuvoa_class(&c, SESSION);
    bikuvoa_forward(&c, DURING);
    bikuvoa_reached(&c);
    bikuvoa_both(&c);
    return c;
}

/* Axioms of every kind, with constants made loose before them, among them and after them, one of them twice. */
static bikuvoa_schema axioms(uint16_t *words, size_t room)
{
    bikuvoa_schema s = bikuvoa_start_schema(words, room, 3, 2, 4);
    bikuvoa_loose(&s, 3);
    bikuvoa_subclass(&s, 0, 1);
    bikuvoa_typing(&s, 1, 1, 2);
    bikuvoa_loose(&s, 1);
    bikuvoa_necessary(&s, 2, 1);
    bikuvoa_single(&s, 2, 0);
    bikuvoa_relates(&s, 1, 2, 1);
    bikuvoa_loose(&s, 3);
    return s;
}

/* Facts in no order, and three of them twice. */
static bikuvoa_state facts(uint16_t *words, size_t room)
{
    bikuvoa_state s = bikuvoa_start_state(words, room, 3);
    bikuvoa_choose(&s, 3, 1);
    bikuvoa_name(&s, 1, 0);
    bikuvoa_choose(&s, 0, 2);
    bikuvoa_pair(&s, 7, 1, 2);
    bikuvoa_pair(&s, 7, 1, 0);
    bikuvoa_member(&s, 23, 2);
    bikuvoa_pair(&s, 7, 1, 1);
    bikuvoa_member(&s, 0, 1);
    bikuvoa_name(&s, 0, 2);
    bikuvoa_member(&s, 23, 2);
    bikuvoa_pair(&s, 7, 1, 0);
    bikuvoa_choose(&s, 3, 1);
    return s;
}

/* Both of the club's concepts, and between them a view without words. */
static bikuvoa_views both_views(uint16_t *words, size_t room)
{
    uint16_t view[LARGEST];
    bikuvoa_views v = bikuvoa_start_views(words, room);
    bikuvoa_view(&v, view, rowers(view, LARGEST).length);
    bikuvoa_view(&v, NULL, 0);
    bikuvoa_view(&v, view, recorded(view, LARGEST).length);
    return v;
}

enum { CLUB, ROWERS, RECORDED, AXIOMS, FACTS, VIEWS, BUILDS };

static size_t build(int which, uint16_t *words, size_t room)
{
    switch (which) {
    case CLUB: return club(words, room).length;
    case ROWERS: return rowers(words, room).length;
    case RECORDED: return recorded(words, room).length;
    case AXIOMS: return axioms(words, room).length;
    case FACTS: return facts(words, room).length;
    default: return both_views(words, room).length;
    }
}

static void files(const char *folder)
{
    static const char *const NAMES[] = {"schema", "query", "view"};
    uint16_t words[LARGEST];
    unsigned char bytes[2 * LARGEST + 1];
    char path[1000];
    size_t length, got, i;
    FILE *file;
    int which;
    for (which = CLUB; which <= RECORDED; which++) {
        if (strlen(folder) + 20 > sizeof path) exit(1);
        sprintf(path, "%s/%s.bin", folder, NAMES[which]);
        file = fopen(path, "rb");
        check(file != NULL, path, which);
        got = fread(bytes, 1, sizeof bytes, file);
        fclose(file);
        length = build(which, words, LARGEST);
        check(got == 2 * length, "the length of a file's record", which);
        for (i = 0; i < length && words[i] % 256 == bytes[2 * i] && words[i] / 256 == bytes[2 * i + 1];) i++;
        check(i == length, "a file's record", which);
    }
}

/* In every room: the whole record or length 0, and no word past the room. */
static void bounds(void)
{
    uint16_t whole[LARGEST], words[LARGEST + GUARDS];
    size_t length, room, i;
    int which;
    for (which = 0; which < BUILDS; which++) {
        length = build(which, whole, LARGEST);
        check(length > 0, "a record", which);
        for (room = 0; room <= length + 1; room++) {
            for (i = 0; i < LARGEST + GUARDS; i++) words[i] = GUARD;
            check(build(which, words, room) == (room < length ? 0 : length), "the length", which);
            for (i = room; i < LARGEST + GUARDS && words[i] == GUARD;) i++;
            check(i == LARGEST + GUARDS, "words past the room", which);
            check(room < length || memcmp(words, whole, length * sizeof *words) == 0, "the same record in any room", which);
        }
        check(build(which, NULL, 0) == 0, "no room", which);
    }
}

/* Every builder, against words that were worked out by hand. */
static void literally(void)
{
    static const uint16_t SCHEMA[] = {3, 2, 4, 5, 10, 256, 513, 770, 1026, 1281, 1, 258, 1, 0, 513};
    static const uint16_t CONCEPT[] = {16, 2, 1, 2, 4, 5, 3, 6, 8, 4, 5, 2, 7, 5, 9, 4, 10, 4,
                                       2, 0, 0, 0, 0, 1, 0, 0, 0, 0, 0, 0, 0, 0, 3, 0};
    static const uint16_t STATE[] = {3, 9, 2, 1, 11778, 15873, 15873, 15873, 16386, 16896, 18434, 19969,
                                     0, 0, 0, 1, 2, 0, 0, 0, 0};
    static const uint16_t CATALOGUE[] = {3, 14, 0, 22, 6, 1, 1, 5, 1, 6, 8, 4, 1, 0, 3, 3, 0, 0,
                                         10, 3, 1, 5, 1, 6, 2, 6, 1, 6, 8, 4, 0, 0, 2, 0, 0, 1, 3, 2, 0, 0};
    uint16_t words[LARGEST];
    bikuvoa_concept c;
    check(axioms(words, LARGEST).length * sizeof *words == sizeof SCHEMA, "a schema's length", 0);
    check(memcmp(words, SCHEMA, sizeof SCHEMA) == 0, "a schema's words", 0);
    c = bikuvoa_start_concept(words, LARGEST);
    bikuvoa_class(&c, 2);
    bikuvoa_everything(&c);
    bikuvoa_both(&c);
    bikuvoa_empty(&c);
    bikuvoa_constant(&c, 0);
    bikuvoa_forward(&c, 1);
    bikuvoa_reached(&c);
    bikuvoa_both(&c);
    bikuvoa_empty(&c);
    bikuvoa_everything(&c);
    bikuvoa_backward(&c, 0);
    bikuvoa_empty(&c);
    bikuvoa_common(&c);
    bikuvoa_both(&c);
    bikuvoa_mark(&c, 3);
    bikuvoa_both(&c);
    check(c.length * sizeof *words == sizeof CONCEPT && memcmp(words, CONCEPT, sizeof CONCEPT) == 0, "a concept's words", 0);
    check(facts(words, LARGEST).length * sizeof *words == sizeof STATE, "a state's length", 0);
    check(memcmp(words, STATE, sizeof STATE) == 0, "a state's words", 0);
    check(both_views(words, LARGEST).length * sizeof *words == sizeof CATALOGUE, "a catalogue's length", 0);
    check(memcmp(words, CATALOGUE, sizeof CATALOGUE) == 0, "a catalogue's words", 0);
}

/* A state, a concept and a catalogue of the most entries that a count can say. */
static void counts(void)
{
    static uint16_t words[BIKUVOA_STATE_WORDS(65535 + 1)];
    bikuvoa_state s = bikuvoa_start_state(words, sizeof words / sizeof *words, 3);
    bikuvoa_concept c;
    bikuvoa_views v;
    words[BIKUVOA_AT_CLASS_FACTS] = 65534;
    s.length = BIKUVOA_STATE_WORDS(65534);
    bikuvoa_member(&s, 0, 1);
    check(s.length == BIKUVOA_STATE_WORDS(65535), "65,535 facts", 0);
    check(bikuvoa_facts(words) == 65535 && bikuvoa_class_facts(words) == 65535, "their counts", 0);
    bikuvoa_member(&s, 0, 2);
    check(s.length == 0 && bikuvoa_class_facts(words) == 65535, "65,536 facts", 0);
    bikuvoa_member(&s, 0, 2);
    check(s.length == 0 && bikuvoa_class_facts(words) == 65535, "after 65,536 facts", 0);
    c = bikuvoa_start_concept(words, sizeof words / sizeof *words);
    c.length = BIKUVOA_CONCEPT_WORDS(65534);
    bikuvoa_forward(&c, 0);
    check(c.length == BIKUVOA_CONCEPT_WORDS(65535), "65,535 tokens", 0);
    check(words[BIKUVOA_AT_TOKENS] == 65535 && words[BIKUVOA_AT_STEPS] == 1, "their counts", 0);
    bikuvoa_forward(&c, 0);
    check(c.length == 0, "65,536", 0);
    bikuvoa_forward(&c, 0);
    check(c.length == 0 && words[BIKUVOA_AT_STEPS] == 1, "after 65,536", 0);
    v = bikuvoa_start_views(words, sizeof words / sizeof *words);
    words[BIKUVOA_AT_VIEWS] = 65534;
    v.length = BIKUVOA_CATALOGUE_SIZES(65534);
    bikuvoa_view(&v, NULL, 0);
    check(v.length == BIKUVOA_CATALOGUE_SIZES(65535) && words[BIKUVOA_AT_VIEWS] == 65535, "65,535 views", 0);
    bikuvoa_view(&v, NULL, 0);
    check(v.length == 0 && words[BIKUVOA_AT_VIEWS] == 65535, "65,536 views", 0);
    bikuvoa_view(&v, NULL, 0);
    check(v.length == 0 && words[BIKUVOA_AT_VIEWS] == 65535, "after 65,536 views", 0);
}

/* A view of more words than a length word can say: the catalogue is refused, and not read as another. */
static void long_view(void)
{
    static uint16_t view[65536], words[BIKUVOA_CATALOGUE_SIZES(1) + 65536];
    static const uint16_t NOTHING_DECLARED[BIKUVOA_SCHEMA_SIZES] = {0, 0, 0, 0, 0};
    uint16_t rows[BIKUVOA_MAX_VIEWS], order[BIKUVOA_MAX_VIEWS];
    uint64_t groups;
    size_t length;
    int more;
    for (more = 0; more < 2; more++) {
        bikuvoa_views v = bikuvoa_start_views(words, sizeof words / sizeof *words);
        length = more ? 65536 : 65535;
        bikuvoa_view(&v, view, length);
        check(v.length == BIKUVOA_CATALOGUE_SIZES(1) + length && words[1] == 65535, "a long view", more);
        check(bikuvoa_catalogue(NOTHING_DECLARED, BIKUVOA_SCHEMA_SIZES, v.words, v.length, rows, BIKUVOA_MAX_VIEWS, order,
                                BIKUVOA_MAX_VIEWS, &groups)
                  == (more ? BIKUVOA_BAD_CATALOGUE : BIKUVOA_BAD_CONCEPT_SHAPE), "its refusal", more);
    }
}

static void states(void)
{
    static const size_t KINDS[] = {0, 23, 31, 31, 31, 32, 33, 36, 39};
    static const size_t OBJECTS[] = {1, 2, 1, 1, 1, 2, 0, 2, 1};
    static const size_t SECONDS[] = {0, 0, 0, 1, 2, 0, 0, 0, 0};
    uint16_t words[LARGEST];
    bikuvoa_state s = facts(words, LARGEST);
    size_t i;
    check(bikuvoa_facts(words) == 9 && s.length == BIKUVOA_STATE_WORDS(9), "nine facts", 0);
    check(bikuvoa_class_facts(words) == 2, "two of them of classes", 0);
    check(bikuvoa_state_length(words) == s.length, "their words", 0);
    for (i = 0; i < 9; i++) {
        check(bikuvoa_fact_kind(words, i) == KINDS[i] && bikuvoa_fact_object(words, i) == OBJECTS[i]
                  && bikuvoa_fact_second(words, i) == SECONDS[i], "facts ascend", 0);
    }
}

/* A number that does not fit is refused, and not read as another. The schema declares all that can be declared. */
static void large_numbers(void)
{
    static const size_t LARGE[] = {24, 31, 255, 256, 257, 511, 512, 65535, 65536, 65536 + 257};
    uint16_t got;
    uint16_t words[LARGEST], other[LARGEST];
    bikuvoa_schema schema = bikuvoa_start_schema(words, LARGEST, BIKUVOA_MAX_CLASSES, BIKUVOA_MAX_ATTRIBUTES, 0);
    bikuvoa_schema s;
    bikuvoa_concept c;
    bikuvoa_state t;
    uint64_t broken;
    size_t n;
    int i, way;
    check(bikuvoa_schema_refusal(schema.words, schema.length) == 0, "the largest sizes", 0);
    for (i = 0; i < 10; i++) {
        n = LARGE[i];
        for (way = 0; way < 12; way++) {
            s = bikuvoa_start_schema(other, LARGEST, BIKUVOA_MAX_CLASSES, BIKUVOA_MAX_ATTRIBUTES, 0);
            if (way == 0) bikuvoa_subclass(&s, n, 0);
            if (way == 1) bikuvoa_subclass(&s, 0, n);
            if (way == 2) bikuvoa_typing(&s, n, 0, 0);
            if (way == 3) bikuvoa_typing(&s, 0, n, 0);
            if (way == 4) bikuvoa_typing(&s, 0, 0, n);
            if (way == 5) bikuvoa_necessary(&s, n, 0);
            if (way == 6) bikuvoa_necessary(&s, 0, n);
            if (way == 7) bikuvoa_single(&s, n, 0);
            if (way == 8) bikuvoa_single(&s, 0, n);
            if (way == 9) bikuvoa_relates(&s, n, 0, 0);
            if (way == 10) bikuvoa_relates(&s, 0, n, 0);
            if (way == 11) bikuvoa_relates(&s, 0, 0, n);
            check(bikuvoa_schema_refusal(s.words, s.length) == BIKUVOA_BAD_AXIOM, "an axiom", 100 * i + way);
        }
        for (way = 0; way < 5; way++) {
            c = bikuvoa_start_concept(other, LARGEST);
            if (way > 2) bikuvoa_empty(&c);
            if (way > 2) bikuvoa_everything(&c);
            if (way == 0) bikuvoa_class(&c, n);
            if (way == 1) bikuvoa_constant(&c, n);
            if (way == 2) bikuvoa_mark(&c, n);
            if (way == 3) bikuvoa_forward(&c, n);
            if (way == 4) bikuvoa_backward(&c, n);
            if (way > 2) bikuvoa_reached(&c);
            got = bikuvoa_query_refusal(schema.words, schema.length, c.words, c.length);
            check(got == BIKUVOA_BAD_TOKEN, "a token", 100 * i + way);
        }
        for (way = 0; way < 6; way++) {
            t = bikuvoa_start_state(other, LARGEST, 20);
            if (way == 0) bikuvoa_member(&t, n, 0);
            if (way == 1) bikuvoa_member(&t, 0, n);
            if (way == 2) bikuvoa_pair(&t, n, 0, 0);
            if (way == 3) bikuvoa_pair(&t, 0, n, 0);
            if (way == 4) bikuvoa_pair(&t, 0, 0, n);
            if (way == 5) bikuvoa_name(&t, n, 0);
            got = bikuvoa_legal(schema.words, schema.length, t.words, t.length, &broken);
            check(got == BIKUVOA_BAD_FACT, "a fact", 100 * i + way);
        }
    }
    s = bikuvoa_start_schema(other, LARGEST, 65536, 0, 0);
    check(bikuvoa_schema_refusal(s.words, s.length) == BIKUVOA_BAD_SCHEMA_SHAPE, "65,536 classes", 0);
    t = bikuvoa_start_state(other, LARGEST, 65536);
    got = bikuvoa_legal(schema.words, schema.length, t.words, t.length, &broken);
    check(got == BIKUVOA_BAD_STATE_SHAPE, "65,536 objects", 0);
}

/* Makes constant k loose among so many, between two axioms; the schema's refusal. */
static uint16_t loosened(uint16_t *words, size_t constants, size_t k)
{
    bikuvoa_schema s = bikuvoa_start_schema(words, BIKUVOA_SCHEMA_WORDS(2), 1, 1, constants);
    bikuvoa_subclass(&s, 0, 0);
    bikuvoa_loose(&s, k);
    bikuvoa_necessary(&s, 0, 0);
    return bikuvoa_schema_refusal(s.words, s.length);
}

/* Accepted exactly if the constant is declared. A number that has no bit of its own makes no constant loose. */
static void loose_numbers(void)
{
    static const size_t LARGE[] = {16, 17, 31, 32, 63, 64, 65535, 65536, 65536 + 1, SIZE_MAX};
    uint16_t words[BIKUVOA_SCHEMA_WORDS(2)], got;
    size_t constants, k;
    int i, row = 0;
    for (constants = 0; constants <= BIKUVOA_MAX_CONSTANTS; constants++) {
        for (k = 0; k < 16; k++, row++) {
            got = loosened(words, constants, k);
            check(words[BIKUVOA_AT_LOOSE] == 1u << k, "the bit of a constant", row);
            check(got == (k < constants ? BIKUVOA_ACCEPTED : BIKUVOA_BAD_LOOSE), "a loose constant", row);
        }
        for (i = 0; i < 10; i++, row++) {
            got = loosened(words, constants, LARGE[i]);
            check(got == BIKUVOA_BAD_LOOSE && words[BIKUVOA_AT_LOOSE] % (1u << BIKUVOA_MAX_CONSTANTS) == 0,
                  "a large number of a loose constant", row);
        }
    }
}

/* Mark k in a query and in a state of three objects, where it is that object; what a counterexample to an empty class is
 * refused by, or says. */
static uint16_t chosen(size_t k, size_t object, uint64_t *found)
{
    static const uint16_t EMPTY_CLASS[] = {1, 0, 1, 0};
    uint16_t schema_words[BIKUVOA_SCHEMA_WORDS(0)], words[BIKUVOA_CONCEPT_WORDS(1)], state_words[BIKUVOA_STATE_WORDS(1)];
    bikuvoa_schema schema = bikuvoa_start_schema(schema_words, BIKUVOA_SCHEMA_WORDS(0), 1, 0, 0);
    bikuvoa_concept query = bikuvoa_start_concept(words, BIKUVOA_CONCEPT_WORDS(1));
    bikuvoa_state state = bikuvoa_start_state(state_words, BIKUVOA_STATE_WORDS(1), 3);
    bikuvoa_mark(&query, k < BIKUVOA_MAX_MARKS ? k : 0);
    bikuvoa_choose(&state, k, object);
    return bikuvoa_counterexample(schema.words, schema.length, query.words, query.length, EMPTY_CLASS, 4, state.words,
                                  state.length, found);
}

/* A mark is one of the first four, is accepted in a query alone, and is an object that is there. */
static void mark_numbers(void)
{
    static const size_t NUMBERS[] = {0, 1, 2, 3, 4, 5, 91, 92, 127, 128, 256, 512, 65535, 65536, 65536 + 1, SIZE_MAX};
    static const uint16_t NOTHING_DECLARED[BIKUVOA_SCHEMA_SIZES] = {0, 0, 0, 0, 0};
    uint16_t words[BIKUVOA_CONCEPT_WORDS(1)];
    bikuvoa_concept c;
    uint64_t found;
    size_t k, object;
    int i;
    for (i = 0; i < 16; i++) {
        k = NUMBERS[i];
        c = bikuvoa_start_concept(words, BIKUVOA_CONCEPT_WORDS(1));
        bikuvoa_mark(&c, k);
        check(bikuvoa_query_refusal(NOTHING_DECLARED, BIKUVOA_SCHEMA_SIZES, c.words, c.length)
                  == (k < 4 ? BIKUVOA_ACCEPTED : BIKUVOA_BAD_TOKEN), "a mark of a query", i);
        check(bikuvoa_concept_refusal(NOTHING_DECLARED, BIKUVOA_SCHEMA_SIZES, c.words, c.length) == BIKUVOA_BAD_TOKEN,
              "a mark of a concept", i);
        check(bikuvoa_view_refusal(NOTHING_DECLARED, BIKUVOA_SCHEMA_SIZES, c.words, c.length) == BIKUVOA_BAD_TOKEN,
              "a mark of a view", i);
        for (object = 0; object < 3; object++) {
            found = 99;
            check(chosen(k, object, &found) == (k < 4 ? BIKUVOA_ACCEPTED : BIKUVOA_BAD_FACT), "a mark of a state", i);
            check(found == (k < 4 ? object + 1 : 99), "the object of a mark", i);
        }
        check(chosen(0, k < 3 ? 3 : k, &found) == BIKUVOA_BAD_FACT, "an object that is not there", i);
    }
}

int main(int argc, char **argv)
{
    if (argc != 2) return 2;
    numbers();
    texts();
    verdicts();
    files(argv[1]);
    bounds();
    literally();
    counts();
    long_view();
    states();
    large_numbers();
    loose_numbers();
    mark_numbers();
    printf("%d checks passed\n", passed);
    return 0;
}
