/* The catalogue, called from C through include/bikuvoa.h: orders worked out by hand, from classes and from document 01's
 * examples; every way in which up to four classes include each other; and every refusal, with what comes before what. In each
 * answer the rows are held to bikuvoa_holds, and the order to its definition. Not proved; it prints how many checks passed. */
#include "check.h"
#include "records.h"
#include "sets.h"
#include <stdio.h>
#include <stdlib.h>
#include <string.h>

#define MOST BIKUVOA_MAX_VIEWS
#define ROW_PATTERN 0xB0E0
#define ORDER_PATTERN 0xD0E0
#define GROUPS_PATTERN UINT64_C(0xBEEFBEEFBEEFBEEF)

/* A call. Beside the lent words and after the first 16 of them stand words that must stay as they are. */

enum { BESIDE = 2, ROOM = MOST + 4, AREA = BESIDE + ROOM + BESIDE };
static uint16_t row_area[AREA], order_area[AREA];
static uint16_t *const rows = row_area + BESIDE, *const order = order_area + BESIDE;
static uint64_t out_area[3];
static uint64_t *const groups = out_area + 1;

static uint16_t call(Record schema, Record views, size_t rows_words, size_t order_words)
{
    for (uint16_t i = 0; i < AREA; i++) {
        row_area[i] = ROW_PATTERN + i;
        order_area[i] = ORDER_PATTERN + i;
    }
    for (int i = 0; i < 3; i++) out_area[i] = GROUPS_PATTERN;
    return bikuvoa_catalogue(schema.at, schema.words, views.at, views.words, rows_words ? rows : NULL, rows_words,
                             order_words ? order : NULL, order_words, groups);
}

/* Every word but the first so many of the rows and of the order. */
static int unaltered_but(int written)
{
    for (int i = 0; i < AREA; i++) {
        if (BESIDE <= i && i < BESIDE + written) continue;
        if (row_area[i] != ROW_PATTERN + i || order_area[i] != ORDER_PATTERN + i) return 0;
    }
    return out_area[0] == GROUPS_PATTERN && out_area[2] == GROUPS_PATTERN;
}

static void refused_with(size_t rows_words, size_t order_words, Record schema, Record views, int number, const char *what,
                         int row)
{
    check(call(schema, views, rows_words, order_words) == number, what, row);
    check(unaltered_but(0) && *groups == GROUPS_PATTERN, "a refused call alters nothing", row);
}

/* Also where the lent words are too few, which is seen last. */
static void refused(Record schema, Record views, int number, const char *what, int row)
{
    refused_with(MOST, ROOM, schema, views, number, what, row);
    refused_with(MOST - 1, MOST, schema, views, number, what, row);
    refused_with(MOST, MOST - 1, schema, views, number, what, row);
    refused_with(0, 0, schema, views, number, what, row);
}

/* Word i is what bikuvoa_holds says of view i and each view; the words past the last view are 0. */
static int rows_are_held(Record schema, Record views)
{
    size_t n = views.at[BIKUVOA_AT_VIEWS], start = BIKUVOA_CATALOGUE_SIZES(n);
    Record view[MOST];
    for (size_t i = 0; i < n; i++) {
        view[i] = (Record){views.at[1 + i], views.at + start};
        start += view[i].words;
    }
    for (size_t i = 0; i < MOST; i++) {
        uint16_t row = 0;
        for (size_t j = 0; i < n && j < n; j++) {
            uint64_t held = 0;
            if (bikuvoa_holds(schema.at, schema.words, view[i].at, view[i].words, view[j].at, view[j].words, &held)) return 0;
            if (held) row |= (uint16_t)BIT(j);
        }
        if (rows[i] != row) return 0;
    }
    return 1;
}

/* The views that view i holds and is held by. */
static uint16_t group_of(size_t i)
{
    uint16_t group = 0;
    for (size_t j = 0; j < MOST; j++)
        if (has(rows[i], j) && has(rows[j], i)) group |= (uint16_t)BIT(j);
    return group;
}

/* Whether a group of these views is narrower than that of view i. */
static int has_narrower(uint16_t set, size_t i)
{
    for (size_t j = 0; j < MOST; j++)
        if (has(set, j) && has(rows[j], i) && !has(rows[i], j)) return 1;
    return 0;
}

/* Each word is the group of the lowest view still to come that has no narrower group still to come; where none is left, 0. */
static int order_is_defined(size_t n)
{
    uint16_t to_come = (uint16_t)(BIT(n) - 1);
    uint64_t count = 0;
    for (size_t k = 0; k < MOST; k++) {
        size_t i = 0;
        while (i < n && (!has(to_come, i) || has_narrower(to_come, i))) i++;
        if (order[k] != (i < n ? group_of(i) : 0)) return 0;
        to_come &= (uint16_t)~order[k];
        count += i < n;
    }
    return to_come == 0 && *groups == count;
}

static void answered(Record schema, Record views, const char *what, int row)
{
    for (size_t more = 0; more <= ROOM - MOST; more += ROOM - MOST) {
        check(call(schema, views, MOST + more, ROOM - more) == 0, what, row);
        check(unaltered_but(MOST), "words beside the answer", row);
        check(rows_are_held(schema, views), what, row);
        check(order_is_defined(views.at[BIKUVOA_AT_VIEWS]), what, row);
    }
}

/* Catalogues with rows and orders worked out by hand. These are written with a digit, 0 to f, for each view: "02 1 02" are the
 * sets of views 0 and 2, of view 1, and again of 0 and 2. */

static size_t digit(char c)
{
    return (size_t)(c <= '9' ? c - '0' : c - 'a' + 10);
}

static size_t read_sets(const char *text, uint16_t *sets)
{
    size_t n = 1;
    memset(sets, 0, MOST * sizeof *sets);
    for (; *text; text++) {
        if (*text == ' ') n++;
        else sets[n - 1] |= (uint16_t)BIT(digit(*text));
    }
    return n;
}

static void answers(Record schema, Record views, const char *row_sets, const char *order_sets, const char *what, int row)
{
    uint16_t sets[MOST];
    answered(schema, views, what, row);
    check(read_sets(row_sets, sets) == views.at[BIKUVOA_AT_VIEWS], "a row for each view", row);
    check(memcmp(rows, sets, sizeof sets) == 0, what, row);
    check(read_sets(order_sets, sets) == *groups, what, row);
    check(memcmp(order, sets, sizeof sets) == 0, what, row);
}

/* The catalogue that was made last. Words stay after its end: the largest sum of length words, cut to 16 bits or not. */
enum { LARGEST_SUM = MOST * 65535, CATALOGUE_ROOM = BIKUVOA_CATALOGUE_SIZES(MOST) + LARGEST_SUM + 65536 };
static uint16_t catalogue[CATALOGUE_ROOM];

static Record views_of(const Record *views, size_t n)
{
    bikuvoa_views v = bikuvoa_start_views(catalogue, CATALOGUE_ROOM);
    for (size_t i = 0; i < n; i++) bikuvoa_view(&v, views[i].at, views[i].words);
    return (Record){v.length, catalogue};
}

/* Each view is a class, here a letter from a on, and "ab" says that a is a subclass of b. */

static Record class_of(size_t a)
{
    static uint16_t words[BIKUVOA_MAX_CLASSES][BIKUVOA_CONCEPT_WORDS(1)];
    bikuvoa_concept c = bikuvoa_start_concept(words[a], BIKUVOA_CONCEPT_WORDS(1));
    bikuvoa_class(&c, a);
    return (Record){c.length, c.words};
}

static Record classes_of(const char *letters)
{
    Record views[MOST];
    size_t n = strlen(letters);
    for (size_t i = 0; i < n; i++) views[i] = class_of((size_t)(letters[i] - 'a'));
    return views_of(views, n);
}

static Record subclasses(const char *pairs)
{
    static uint16_t words[BIKUVOA_MAX_SCHEMA_WORDS];
    bikuvoa_schema schema = bikuvoa_start_schema(words, BIKUVOA_MAX_SCHEMA_WORDS, BIKUVOA_MAX_CLASSES, 0, 0);
    for (; *pairs; pairs += pairs[2] ? 3 : 2) bikuvoa_subclass(&schema, (size_t)(pairs[0] - 'a'), (size_t)(pairs[1] - 'a'));
    return (Record){schema.length, words};
}

static const struct {
    const char *what, *classes, *subclasses, *rows, *order;
} BY_CLASS[] = {
    {"one view", "a", "", "0", "0"},
    {"one view of a circle", "b", "ab ba", "0", "0"},
    {"two views, the narrow one first", "ab", "ab", "01 1", "0 1"},
    {"two views, the wide one first", "ba", "ab", "0 01", "1 0"},
    {"a view twice", "aa", "", "01 01", "01"},
    {"a chain, narrow first", "abcd", "ab bc cd", "0123 123 23 3", "0 1 2 3"},
    {"a chain, wide first", "dcba", "ab bc cd", "0 01 012 0123", "3 2 1 0"},
    {"a chain, shuffled", "cadb", "ab bc cd", "02 0123 2 023", "1 3 0 2"},
    {"a chain with gaps", "gac", "ab bc cd de ef fg", "0 012 02", "1 2 0"},
    {"nothing held", "abcd", "", "0 1 2 3", "0 1 2 3"},
    {"nothing held, in another order of classes", "dbca", "", "0 1 2 3", "0 1 2 3"},
    {"views twice, interleaved", "abab", "", "02 13 02 13", "02 13"},
    {"views twice, nested", "abccba", "", "05 14 23 23 14 05", "05 14 23"},
    {"a circle", "abcd", "ab bc ca", "012 012 012 3", "012 3"},
    {"two circles, one in the other", "acbd", "ab ba cd dc bc", "0123 13 0123 13", "02 13"},
    {"two circles, the wide one with the lowest number", "cabd", "ab ba cd dc bc", "03 0123 0123 03", "12 03"},
    {"a group waits for one of higher numbers", "abc", "ab ba ca", "01 01 012", "2 01"},
    {"the lowest number waits, and another goes ahead", "abcd", "ac ca da", "02 1 02 023", "1 3 02"},
    {"a group waits because of its other member", "aba", "ba", "02 012 02", "1 02"},
    {"what comes free goes ahead", "abc", "ba", "0 01 2", "1 0 2"},
    {"the last one is the narrowest", "abcd", "da", "0 1 2 03", "1 2 3 0"},
    {"a diamond, narrow first", "abcd", "ab ac bd cd", "0123 13 23 3", "0 1 2 3"},
    {"a diamond, wide first", "dcba", "ab ac bd cd", "0 01 02 0123", "3 1 2 0"},
    {"a diamond, a side first", "bdac", "ab ac bd cd", "01 1 0123 13", "2 0 3 1"},
    {"a diamond with double sides", "dcbacb", "ab ac bd cd", "0 014 025 012345 014 025", "3 14 25 0"},
    {"two chains, interleaved", "baccbda", "ab cd", "04 0146 235 235 04 5 0146", "16 04 23 5"},
    {"two chains, wide first", "abccdd", "ca db", "0 1 023 023 145 145", "23 0 45 1"},
    {"groups by their lowest member", "abcddeec", "ea cb", "0 1 127 34 34 056 056 127", "27 1 34 56 0"},
    {"a wide group of the lowest and the highest number", "abcda", "ba ca da", "04 014 024 034 04", "1 2 3 04"},
    {"two groups that wait for the same", "abcab", "ca cb", "03 14 01234 03 14", "2 03 14"},
    {"sixteen, all alike", "aaaaaaaaaaaaaaaa", "",
     "0123456789abcdef 0123456789abcdef 0123456789abcdef 0123456789abcdef 0123456789abcdef 0123456789abcdef 0123456789abcdef "
     "0123456789abcdef 0123456789abcdef 0123456789abcdef 0123456789abcdef 0123456789abcdef 0123456789abcdef 0123456789abcdef "
     "0123456789abcdef 0123456789abcdef", "0123456789abcdef"},
    {"sixteen, nothing held", "abcdefghijklmnop", "", "0 1 2 3 4 5 6 7 8 9 a b c d e f", "0 1 2 3 4 5 6 7 8 9 a b c d e f"},
    {"sixteen, pairs from both ends", "abcdefghhgfedcba", "hg gf fe ed dc cb ba",
     "0f 01ef 012def 0123cdef 01234bcdef 012345abcdef 01234569abcdef 0123456789abcdef 0123456789abcdef 01234569abcdef "
     "012345abcdef 01234bcdef 0123cdef 012def 01ef 0f", "78 69 5a 4b 3c 2d 1e 0f"},
    {"sixteen under the first and over the last", "abcdefghijklmnop", "ba ca da ea fa ga ha ia ja ka la ma na oa "
     "pb pc pd pe pf pg ph pi pj pk pl pm pn po",
     "0 01 02 03 04 05 06 07 08 09 0a 0b 0c 0d 0e 0123456789abcdef", "f 1 2 3 4 5 6 7 8 9 a b c d e 0"},
};

static void classes_by_hand(void)
{
    for (int row = 0; row < (int)(sizeof BY_CLASS / sizeof *BY_CLASS); row++)
        answers(subclasses(BY_CLASS[row].subclasses), classes_of(BY_CLASS[row].classes), BY_CLASS[row].rows,
                BY_CLASS[row].order, BY_CLASS[row].what, row);
}

/* Chains of every length up to 16. The step is odd, and so takes each view of the longest once: with 1 it is narrow first, with
 * 15 all but the first are wide first. */
static void chains(void)
{
    for (size_t n = 1; n <= MOST; n++)
        for (size_t step = 1; step < MOST; step += 2) {
            uint16_t words[BIKUVOA_SCHEMA_WORDS(MOST - 1)];
            bikuvoa_schema schema = bikuvoa_start_schema(words, BIKUVOA_SCHEMA_WORDS(MOST - 1), MOST, 0, 0);
            Record views[MOST];
            size_t place[MOST], i = 0;
            for (size_t a = 1; a < MOST; a++) bikuvoa_subclass(&schema, a - 1, a);
            for (size_t a = 0; a < MOST; a++)
                if (a * step % MOST < n) place[a * step % MOST] = a;
            for (i = 0; i < n; i++) views[i] = class_of(place[i]);
            answered((Record){schema.length, words}, views_of(views, n), "a chain", (int)(100 * n + step));
            for (i = 0; i < n; i++) {
                uint16_t wider = 0;
                int before = 0;
                for (size_t j = 0; j < n; j++) {
                    if (place[j] >= place[i]) wider |= (uint16_t)BIT(j);
                    before += place[j] < place[i];
                }
                check(rows[i] == wider, "a row of a chain", (int)(100 * n + step));
                check(order[before] == BIT(i), "a place in a chain", (int)(100 * n + step));
            }
            check(*groups == n, "the groups of a chain", (int)(100 * n + step));
        }
}

/* Every set of subclass axioms between up to four classes. The rows are what these lead to by one step after another. */
static void all_inclusions(void)
{
    for (size_t n = 1; n <= 4; n++)
        for (unsigned set = 0; set < BIT(n * (n - 1)); set++) {
            uint16_t words[BIKUVOA_SCHEMA_WORDS(12)], reached[4] = {0};
            bikuvoa_schema schema = bikuvoa_start_schema(words, BIKUVOA_SCHEMA_WORDS(12), 4, 0, 0);
            Record views[4];
            unsigned bit = 0;
            for (size_t a = 0; a < n; a++) {
                views[a] = class_of(a);
                reached[a] |= (uint16_t)BIT(a);
                for (size_t b = 0; b < n; b++) {
                    if (a == b || !(set >> bit++ & 1)) continue;
                    bikuvoa_subclass(&schema, a, b);
                    reached[a] |= (uint16_t)BIT(b);
                }
            }
            for (size_t by = 0; by < n; by++)
                for (size_t a = 0; a < n; a++)
                    if (has(reached[a], by)) reached[a] |= reached[by];
            answered((Record){schema.length, words}, views_of(views, n), "some inclusions", (int)(10000 * n + set));
            check(memcmp(rows, reached, n * sizeof *rows) == 0, "what inclusions lead to", (int)(10000 * n + set));
        }
}

/* Sixteen views of up to sixteen classes, and few or many inclusions at random. */
static void some_inclusions(void)
{
    uint64_t random = 1;
    for (int round = 0; round < 300; round++) {
        uint16_t words[BIKUVOA_SCHEMA_WORDS(48)];
        bikuvoa_schema schema = bikuvoa_start_schema(words, BIKUVOA_SCHEMA_WORDS(48), MOST, 0, 0);
        Record views[MOST];
        for (int i = 0; i < MOST + round % 48; i++) {
            random = random * 6364136223846793005u + 1442695040888963407u;
            size_t a = random >> 60, b = random >> 56 & 15;
            if (i < MOST) views[i] = class_of(round % 2 ? (size_t)i : a);
            else bikuvoa_subclass(&schema, a, b);
        }
        answered((Record){schema.length, words}, views_of(views, MOST), "inclusions at random", round);
    }
}

/* Document 01's schema X with its selections, its triples, the example of the report and the rowing club; and views that hold
 * each other, or have no objects, by the axioms and by which constants are loose. */

typedef struct {
    uint16_t left, right;
} Axiom;

typedef struct {
    size_t n;
    const Axiom *at;
} Axioms;

#define AXIOMS(...) {sizeof((Axiom[]){__VA_ARGS__}) / sizeof(Axiom), (const Axiom[]){__VA_ARGS__}}
#define NO_AXIOMS {0, NULL}
#define SUBCLASS(a, b) {BIKUVOA_SUBCLASS * 256 + (a), b}
#define TYPING(a, p, b) {BIKUVOA_TYPING * 256 + (a), (p) * 256 + (b)}
#define NEEDS(a, p) {BIKUVOA_NECESSARY * 256 + (a), p}
#define SINGLE(a, p) {BIKUVOA_SINGLE * 256 + (a), p}
#define RELATES(p, a, b) {BIKUVOA_RELATES * 256 + (p), (a) * 256 + (b)}

/* Tokens of a step that lands on something. */
#define ANY_FORWARD(p) EVERYTHING, FORWARD(p)
#define ANY_BACKWARD(p) EVERYTHING, BACKWARD(p)

enum { A, B, C };
enum { P, Q };
enum { STRAP, PERSON };
enum { WEARS };
enum { PATIENT, HUMAN, DRUG, DOCTOR, DISEASE, STRING, TOPIC, MALE, FEMALE };
enum { TAKES, CONSULTS, SUFFERS, NAME, SKILLED_IN };
enum { MEMBER, ROWER, CLUB_STRAP, SESSION, BEAT };
enum { CLUB_WEARS, RECORDS, DURING, ATTENDS };

#define SELECTIONS                                                                                                            \
    {                                                                                                                         \
        TOKENS(EVERYTHING), TOKENS(CONSTANT(0)), TOKENS(EMPTY, CLASS(STRAP), FORWARD(WEARS), REACHED),                        \
        TOKENS(EMPTY, ANY_BACKWARD(WEARS), REACHED),                                                                          \
        TOKENS(EMPTY, ANY_FORWARD(WEARS), CONSTANT(0), BACKWARD(WEARS), REACHED),                                             \
        TOKENS(EMPTY, ANY_FORWARD(WEARS), CONSTANT(0), BACKWARD(WEARS), EMPTY, COMMON), TOKENS(EMPTY, REACHED),               \
        TOKENS(CLASS(PERSON), CLASS(STRAP), BOTH),                                                                            \
        TOKENS(EMPTY, ANY_FORWARD(WEARS), EMPTY, CLASS(STRAP), FORWARD(WEARS), COMMON)                                        \
    }

#define VALUES                                                                                                                \
    {                                                                                                                         \
        TOKENS(EMPTY, CLASS(B), CLASS(C), BOTH, FORWARD(P), REACHED),                                                         \
        TOKENS(CLASS(A), EMPTY, CLASS(B), FORWARD(P), REACHED, EMPTY, CLASS(C), FORWARD(P), REACHED, BOTH, BOTH),             \
        TOKENS(CLASS(A), EMPTY, CLASS(B), FORWARD(P), REACHED, BOTH), TOKENS(EMPTY, CLASS(B), FORWARD(P), REACHED)            \
    }

#define CONSTANT_VALUES                                                                                                       \
    {                                                                                                                         \
        TOKENS(CLASS(A)),                                                                                                     \
        TOKENS(EMPTY, CONSTANT(0), FORWARD(P), REACHED, EMPTY, CONSTANT(1), FORWARD(P), REACHED, BOTH, CLASS(A), BOTH),       \
        TOKENS(CONSTANT(1), CONSTANT(0), BOTH), TOKENS(EVERYTHING)                                                            \
    }

/* A view that has no object in any legal state, as two constants at once that are both not loose, is held by all. */
#define CONSTANTS                                                                                                             \
    {                                                                                                                         \
        TOKENS(CONSTANT(0)), TOKENS(CONSTANT(1)), TOKENS(CONSTANT(2)), TOKENS(CONSTANT(0), CONSTANT(1), BOTH),                \
        TOKENS(CONSTANT(1), CONSTANT(2), BOTH), TOKENS(CONSTANT(2), CONSTANT(0), BOTH),                                       \
        TOKENS(CONSTANT(0), CONSTANT(1), CONSTANT(2), BOTH, BOTH), TOKENS(EVERYTHING)                                         \
    }

static const struct {
    const char *what;
    size_t classes, attributes, constants;
    uint16_t loose;
    Axioms axioms;
    Tokens views[MOST];
    const char *rows, *order;
} BY_AXIOM[] = {
    {"the selections", 2, 1, 1, 0, AXIOMS(SINGLE(PERSON, WEARS), RELATES(WEARS, PERSON, STRAP)), SELECTIONS,
     "06 016 0268 036 02468 0124568 06 067 0268", "3 5 1 4 28 7 06"},
    {"the selections where a strap wears something", 2, 1, 1, 0,
     AXIOMS(SINGLE(PERSON, WEARS), RELATES(WEARS, PERSON, STRAP), NEEDS(STRAP, WEARS)), SELECTIONS,
     "06 016 0268 023678 02468 0124568 06 02678 0268", "3 5 1 4 7 28 06"},
    {"the selections without axioms", 2, 1, 1, 0, NO_AXIOMS, SELECTIONS,
     "06 016 0268 036 046 01456 06 067 0268", "28 3 5 1 4 7 06"},
    {"a domain that a needed value forces", 3, 1, 0, 0, AXIOMS(NEEDS(A, P), RELATES(P, B, C)),
     {TOKENS(CLASS(B)), TOKENS(CLASS(A)), TOKENS(EMPTY, ANY_FORWARD(P), REACHED), TOKENS(EMPTY, CLASS(C), FORWARD(P), REACHED),
      TOKENS(EVERYTHING), TOKENS(CLASS(C)), TOKENS(EMPTY, CLASS(A), BACKWARD(P), REACHED)},
     "04 01234 0234 0234 4 45 456", "1 23 0 6 5 4"},
    {"up to six steps", 2, 1, 0, 0, AXIOMS(NEEDS(A, P), TYPING(A, P, A)),
     {TOKENS(EMPTY, ANY_FORWARD(P), REACHED),
      TOKENS(EMPTY, ANY_FORWARD(P), ANY_FORWARD(P), ANY_FORWARD(P), ANY_FORWARD(P), ANY_FORWARD(P), ANY_FORWARD(P), REACHED),
      TOKENS(CLASS(A)), TOKENS(EMPTY, ANY_FORWARD(P), ANY_FORWARD(P), ANY_FORWARD(P), REACHED),
      TOKENS(EMPTY, ANY_FORWARD(P), ANY_FORWARD(P), ANY_FORWARD(P), ANY_FORWARD(P), ANY_FORWARD(P), CLASS(B), FORWARD(P),
             REACHED)},
     "0 013 0123 03 0134", "2 4 1 3 0"},
    {"two constants at once", 1, 0, 2, 0, NO_AXIOMS,
     {TOKENS(CLASS(A)), TOKENS(CONSTANT(0), CONSTANT(1), BOTH), TOKENS(EVERYTHING), TOKENS(CONSTANT(0)),
      TOKENS(CONSTANT(1), CONSTANT(0), BOTH, CLASS(A), BOTH), TOKENS(CONSTANT(1))},
     "02 012345 2 23 012345 25", "14 0 3 5 2"},
    {"at most one value", 3, 1, 0, 0, AXIOMS(SINGLE(A, P)), VALUES, "03 0123 23 3", "1 0 2 3"},
    {"any number of values", 3, 1, 0, 0, NO_AXIOMS, VALUES, "03 123 23 3", "0 1 2 3"},
    {"there and back", 2, 1, 0, 0, AXIOMS(NEEDS(A, P)),
     {TOKENS(EMPTY, ANY_FORWARD(P), REACHED), TOKENS(EMPTY, ANY_FORWARD(P), CLASS(B), BACKWARD(P), REACHED),
      TOKENS(EMPTY, ANY_FORWARD(P), CLASS(A), BACKWARD(P), REACHED), TOKENS(CLASS(A))},
     "0 01 02 023", "1 3 2 0"},
    {"the patients", 9, 5, 0, 0,
     AXIOMS(SUBCLASS(PATIENT, HUMAN), TYPING(PATIENT, TAKES, DRUG), TYPING(PATIENT, CONSULTS, DOCTOR),
            TYPING(PATIENT, SUFFERS, DISEASE), NEEDS(PATIENT, SUFFERS), TYPING(HUMAN, NAME, STRING), NEEDS(HUMAN, NAME),
            SINGLE(HUMAN, NAME), TYPING(DOCTOR, SKILLED_IN, DISEASE), RELATES(SKILLED_IN, HUMAN, TOPIC)),
     {TOKENS(CLASS(PATIENT), EMPTY, CLASS(STRING), FORWARD(NAME), REACHED, BOTH, EMPTY, CLASS(DOCTOR), FORWARD(CONSULTS),
             CLASS(DISEASE), FORWARD(SKILLED_IN), EMPTY, CLASS(DISEASE), FORWARD(SUFFERS), COMMON, BOTH),
      TOKENS(CLASS(MALE), CLASS(PATIENT), BOTH, EMPTY, CLASS(FEMALE), FORWARD(CONSULTS), EMPTY, ANY_FORWARD(SUFFERS),
             CLASS(DOCTOR), BACKWARD(SKILLED_IN), COMMON, BOTH),
      TOKENS(CLASS(PATIENT)), TOKENS(CLASS(HUMAN))},
     "023 0123 23 3", "1 0 2 3"},
    {"the rowing club", 5, 4, 0, 0,
     AXIOMS(SUBCLASS(ROWER, MEMBER), NEEDS(ROWER, CLUB_WEARS), SINGLE(MEMBER, CLUB_WEARS),
            RELATES(CLUB_WEARS, MEMBER, CLUB_STRAP), NEEDS(CLUB_STRAP, RECORDS), RELATES(RECORDS, CLUB_STRAP, BEAT),
            NEEDS(BEAT, DURING), SINGLE(BEAT, DURING), RELATES(DURING, BEAT, SESSION), RELATES(ATTENDS, MEMBER, SESSION)),
     {TOKENS(CLASS(MEMBER)),
      TOKENS(CLASS(MEMBER), EMPTY, CLASS(CLUB_STRAP), FORWARD(CLUB_WEARS), ANY_FORWARD(RECORDS), CLASS(SESSION),
             FORWARD(DURING), REACHED, BOTH),
      TOKENS(EMPTY, CLASS(CLUB_STRAP), FORWARD(CLUB_WEARS), REACHED),
      TOKENS(CLASS(ROWER), EMPTY, CLASS(SESSION), FORWARD(ATTENDS), REACHED, BOTH), TOKENS(CLASS(ROWER))},
     "0 012 012 01234 0124", "3 4 12 0"},
    {"a circle through needed values", 3, 2, 0, 0, AXIOMS(NEEDS(A, P), RELATES(P, B, C), NEEDS(B, Q), RELATES(Q, A, C)),
     {TOKENS(CLASS(C)), TOKENS(EMPTY, ANY_FORWARD(P), REACHED), TOKENS(CLASS(A), CLASS(B), BOTH),
      TOKENS(EMPTY, CLASS(C), FORWARD(Q), REACHED), TOKENS(CLASS(B)), TOKENS(CLASS(C), CLASS(A), BOTH)},
     "0 1234 1234 1234 1234 012345", "5 0 1234"},
    {"two constants as the one value", 1, 1, 2, 0, AXIOMS(SINGLE(A, P)), CONSTANT_VALUES, "03 0123 0123 3", "12 0 3"},
    {"two constants as values", 1, 1, 2, 0, NO_AXIOMS, CONSTANT_VALUES, "03 013 0123 3", "2 1 0 3"},
    {"two constants as the one value, the first loose", 1, 1, 2, 1, AXIOMS(SINGLE(A, P)), CONSTANT_VALUES, "03 013 23 3",
     "1 0 2 3"},
    {"two constants as values, both loose", 1, 1, 2, 3, NO_AXIOMS, CONSTANT_VALUES, "03 013 23 3", "1 0 2 3"},
    {"several constants at once", 0, 0, 3, 0, NO_AXIOMS, CONSTANTS, "07 17 27 01234567 01234567 01234567 01234567 7",
     "3456 0 1 2 7"},
    {"several constants, the first loose", 0, 0, 3, 1, NO_AXIOMS, CONSTANTS, "07 17 27 0137 01234567 0257 01234567 7",
     "46 3 1 5 0 2 7"},
    {"several constants, the second loose", 0, 0, 3, 2, NO_AXIOMS, CONSTANTS, "07 17 27 0137 1247 01234567 01234567 7",
     "56 3 0 4 1 2 7"},
    {"several constants, the last loose", 0, 0, 3, 4, NO_AXIOMS, CONSTANTS, "07 17 27 01234567 1247 0257 01234567 7",
     "36 4 1 5 0 2 7"},
    {"several constants, all but the last loose", 0, 0, 3, 3, NO_AXIOMS, CONSTANTS, "07 17 27 0137 1247 0257 01234567 7",
     "6 3 4 1 5 0 2 7"},
    {"several constants, all loose", 0, 0, 3, 7, NO_AXIOMS, CONSTANTS, "07 17 27 0137 1247 0257 01234567 7",
     "6 3 4 1 5 0 2 7"},
    {"nothing declared", 0, 0, 0, 0, NO_AXIOMS, {TOKENS(EMPTY, REACHED), TOKENS(EVERYTHING), TOKENS(EMPTY, EMPTY, COMMON)},
     "012 012 012", "012"},
};

static Record schema_of(size_t classes, size_t attributes, size_t constants, uint16_t loose, Axioms axioms)
{
    static uint16_t words[BIKUVOA_MAX_SCHEMA_WORDS];
    bikuvoa_schema schema = bikuvoa_start_schema(words, BIKUVOA_MAX_SCHEMA_WORDS, classes, attributes, constants);
    words[BIKUVOA_AT_LOOSE] = loose;
    for (size_t i = 0; i < axioms.n; i++) bikuvoa_axiom(&schema, axioms.at[i].left, axioms.at[i].right);
    return (Record){schema.length, words};
}

static void axioms_by_hand(void)
{
    for (int row = 0; row < (int)(sizeof BY_AXIOM / sizeof *BY_AXIOM); row++) {
        const Tokens *tokens = BY_AXIOM[row].views;
        Record views[MOST];
        size_t n = 0;
        for (; n < MOST && tokens[n].n > 0; n++) views[n] = concept_of(tokens[n]);
        answers(schema_of(BY_AXIOM[row].classes, BY_AXIOM[row].attributes, BY_AXIOM[row].constants, BY_AXIOM[row].loose,
                          BY_AXIOM[row].axioms),
                views_of(views, n), BY_AXIOM[row].rows, BY_AXIOM[row].order, BY_AXIOM[row].what, row);
    }
}

/* Sixteen views of 64 tokens under 96 axioms. View i is class i with six steps after it; class i + 1 is in class i, so that the
 * last view is the narrowest. */
static void largest(void)
{
    static uint16_t schema_words[BIKUVOA_MAX_SCHEMA_WORDS], words[MOST][BIKUVOA_MAX_CONCEPT_WORDS];
    bikuvoa_schema schema = bikuvoa_start_schema(schema_words, BIKUVOA_MAX_SCHEMA_WORDS, 24, 8, 4);
    Record views[MOST];
    for (size_t i = 0; i < 96; i++) bikuvoa_subclass(&schema, i % 23 + 1, i % 23);
    for (size_t i = 0; i < MOST; i++) {
        bikuvoa_concept c = bikuvoa_start_concept(words[i], BIKUVOA_MAX_CONCEPT_WORDS);
        bikuvoa_empty(&c);
        for (size_t p = 0; p < BIKUVOA_VIEW_STEPS; p++) {
            bikuvoa_class(&c, p);
            bikuvoa_forward(&c, p);
        }
        bikuvoa_reached(&c);
        for (int pair = 0; pair < 25; pair++) {
            bikuvoa_class(&c, i);
            bikuvoa_both(&c);
        }
        views[i] = (Record){c.length, c.words};
    }
    Record all = views_of(views, MOST), axioms = {schema.length, schema_words};
    check(all.words == BIKUVOA_MAX_CATALOGUE_WORDS && axioms.words == BIKUVOA_MAX_SCHEMA_WORDS, "the largest records", 0);
    answered(axioms, all, "the largest catalogue", 0);
    check(rows[0] == BIT(0) && rows[15] == 0xFFFF, "its rows", 0);
    check(*groups == MOST && order[0] == BIT(15) && order[15] == BIT(0), "its order", 0);
}

/* Refusals. In the schema one class is declared. */

static Record one_class, everything;

/* A faulty schema for each refusal, in the order of the checks. */
enum { SCHEMA_FAULTS = 3 };
static const int SCHEMA_NUMBER[SCHEMA_FAULTS] = {1, 14, 2};
static Record bad_schemas[SCHEMA_FAULTS];

/* A faulty view for each of 3 to 6, and more for 3, 6 and 4: without words, a word too long and too short, a step too many, a
 * mark. */
enum { FAULTS = 9 };
static const int NUMBER[FAULTS] = {3, 4, 5, 6, 3, 3, 3, 6, 4};
static Record faulty[FAULTS];

static void make_faults(void)
{
    static uint16_t false_steps[] = {1, 1, 2, 0}, too_long[] = {1, 0, 2, 0, 0}, kind_6[] = {1, 1, 0, 1, 0, 6 * 256, 0};
    static uint16_t loose[] = {1, 1, 0, 0, 1};
    one_class = declaring(1, 1, 0);
    everything = concept_of((Tokens)TOKENS(EVERYTHING));
    bad_schemas[0] = (Record){one_class.words - 1, one_class.at};
    bad_schemas[1] = (Record){5, loose};
    bad_schemas[2] = (Record){7, kind_6};
    faulty[0] = concept_of((Tokens){0, NULL});
    faulty[1] = concept_of((Tokens)TOKENS(CLASS(1)));
    faulty[2] = concept_of((Tokens)TOKENS(EVERYTHING, EVERYTHING));
    faulty[3] = (Record){4, false_steps};
    faulty[4] = (Record){0, NULL};
    faulty[5] = (Record){5, too_long};
    faulty[6] = (Record){everything.words - 1, everything.at};
    faulty[7] = concept_of((Tokens)TOKENS(EMPTY, ANY_FORWARD(0), ANY_FORWARD(0), ANY_FORWARD(0), ANY_FORWARD(0), ANY_FORWARD(0),
                                          ANY_FORWARD(0), ANY_FORWARD(0), REACHED));
    faulty[8] = concept_of((Tokens)TOKENS(MARK(0)));
}

/* More views than a byte can count. */
enum { MANY = 300 };

/* So many views, all "everything" but the one or the two that are given. */
static Record with(size_t n, size_t i, Record first, size_t j, Record second)
{
    Record views[MANY];
    for (size_t k = 0; k < n; k++) views[k] = everything;
    if (i < n) views[i] = first;
    if (j < n) views[j] = second;
    return views_of(views, n);
}

static Record alike(size_t n)
{
    return with(n, n, everything, n, everything);
}

/* Every number of views; where it is small, with every other length of the record and every other count. */
static void layouts(void)
{
    refused(one_class, (Record){0, NULL}, BIKUVOA_BAD_CATALOGUE, "an empty record", 0);
    for (size_t n = 0; n <= MANY; n++) {
        Record views = alike(n);
        int row = (int)(1000 * n);
        if (1 <= n && n <= MOST) answered(one_class, views, "views", row);
        else refused(one_class, views, BIKUVOA_BAD_CATALOGUE, "a number of views", row);
        for (size_t words = 0; n <= MOST + 1 && words <= views.words + 5; words++)
            if (words != views.words)
                refused(one_class, (Record){words, catalogue}, BIKUVOA_BAD_CATALOGUE, "a length", row + (int)words);
        for (size_t count = 0; n <= MOST + 1 && count <= MANY; count++) {
            catalogue[BIKUVOA_AT_VIEWS] = (uint16_t)count;
            if (count != n) refused(one_class, views, BIKUVOA_BAD_CATALOGUE, "a count", row + (int)count);
        }
    }
    memset(catalogue, 0, 65536 * sizeof *catalogue);
    catalogue[BIKUVOA_AT_VIEWS] = 65535;
    refused(one_class, (Record){65536, catalogue}, BIKUVOA_BAD_CATALOGUE, "65,535 views without words", 0);
}

/* Records of a count alone. */
static void counts_alone(void)
{
    for (unsigned count = 0; count <= 65535; count += count < 300 ? 1 : 4661) {
        const uint16_t word = (uint16_t)count;
        refused(one_class, (Record){1, &word}, BIKUVOA_BAD_CATALOGUE, "only a count", (int)count);
    }
}

/* Length words that make more than a word can say. Cut to 16 bits the sum would fit a short record; as it is, it fits a long
 * one, and then a view does not have the length of its record. A first view of 4 words has, but names an undeclared class. */
static const struct {
    size_t n;
    uint16_t lengths[MOST];
} LARGE_SUMS[] = {
    {1, {65534}}, {1, {65535}}, {2, {65535, 1}}, {2, {65535, 5}}, {2, {5, 65535}}, {2, {4, 65535}}, {3, {4, 65535, 1}},
    {3, {65535, 1, 4}}, {3, {4, 4, 65532}}, {16, {4, 4, 4, 4, 4, 4, 4, 4, 65535, 5, 4, 4, 4, 4, 4, 4}},
    {16, {4096, 4096, 4096, 4096, 4096, 4096, 4096, 4096, 4096, 4096, 4096, 4096, 4096, 4096, 4096, 4096}},
    {16, {65535, 65535, 65535, 65535, 65535, 65535, 65535, 65535, 65535, 65535, 65535, 65535, 65535, 65535, 65535, 65535}},
};

static void large_sums(void)
{
    for (int row = 0; row < (int)(sizeof LARGE_SUMS / sizeof *LARGE_SUMS); row++) {
        size_t n = LARGE_SUMS[row].n, sizes = BIKUVOA_CATALOGUE_SIZES(n), sum = 0;
        const uint16_t *lengths = LARGE_SUMS[row].lengths;
        int number = lengths[0] == faulty[1].words ? BIKUVOA_BAD_TOKEN : BIKUVOA_BAD_CONCEPT_SHAPE;
        catalogue[BIKUVOA_AT_VIEWS] = (uint16_t)n;
        for (size_t i = 0; i < n; i++) sum += catalogue[1 + i] = lengths[i];
        for (size_t i = sizes; i < CATALOGUE_ROOM; i++) catalogue[i] = everything.at[(i - sizes) % everything.words];
        memcpy(catalogue + sizes, faulty[1].at, faulty[1].words * sizeof *catalogue);
        refused(one_class, (Record){sizes + sum, catalogue}, number, "a long record", row);
        for (size_t words = sizes + sum - 1; words <= sizes + sum + 1; words += 2)
            refused(one_class, (Record){words, catalogue}, BIKUVOA_BAD_CATALOGUE, "a word more or less", row);
        refused(one_class, (Record){sizes + sum + 65536, catalogue}, BIKUVOA_BAD_CATALOGUE, "65,536 words more", row);
        for (size_t words = 0; words <= 150; words++)
            refused(one_class, (Record){words, catalogue}, BIKUVOA_BAD_CATALOGUE, "a sum cut to 16 bits",
                    1000 * row + (int)words);
        for (size_t words = (sizes + sum) % 65536; words < sizes + sum; words += 65536)
            refused(one_class, (Record){words, catalogue}, BIKUVOA_BAD_CATALOGUE, "words cut to 16 bits", row);
    }
}

/* Length words that make the right sum and do not fit the records. */
static void misfits(void)
{
    for (uint16_t moved = 1; moved <= 4; moved++)
        for (size_t from = 0; from < 3; from++)
            for (size_t to = 0; to < 3; to++) {
                int row = (int)(100 * moved + 10 * from + to);
                if (from == to) continue;
                Record views = alike(3);
                catalogue[1 + from] = (uint16_t)(catalogue[1 + from] - moved);
                catalogue[1 + to] = (uint16_t)(catalogue[1 + to] + moved);
                refused(one_class, views, BIKUVOA_BAD_CONCEPT_SHAPE, "lengths that do not fit", row);
                if (from > 0 && to > 0) {
                    catalogue[BIKUVOA_CATALOGUE_SIZES(3) + 3] = 1;
                    refused(one_class, views, BIKUVOA_BAD_TOKEN, "a faulty view before lengths that do not fit", row);
                }
            }
}

/* Each fault in each view, alone and before another; and after one in the layout, which is seen first. */
static void faulty_views(void)
{
    static const size_t NUMBERS_OF_VIEWS[] = {1, 2, 3, MOST};
    for (size_t at = 0; at < sizeof NUMBERS_OF_VIEWS / sizeof *NUMBERS_OF_VIEWS; at++) {
        size_t n = NUMBERS_OF_VIEWS[at];
        for (size_t i = 0; i < n; i++)
            for (int f = 0; f < FAULTS; f++) {
                int row = (int)(10000 * n + 100 * i) + f;
                Record views = with(n, i, faulty[f], i, faulty[f]);
                refused(one_class, views, NUMBER[f], "a faulty view", row);
                views.words--;
                refused(one_class, views, BIKUVOA_BAD_CATALOGUE, "the layout before a faulty view", row);
                views = with(MOST + 1, i, faulty[f], i, faulty[f]);
                refused(one_class, views, BIKUVOA_BAD_CATALOGUE, "17 views, one of them faulty", row);
                for (size_t j = i + 1; j < n; j++)
                    for (int g = 0; g < FAULTS; g++)
                        refused(one_class, with(n, i, faulty[f], j, faulty[g]), NUMBER[f], "the first of two faults", row);
            }
    }
}

static void faulty_schemas(void)
{
    for (int s = 0; s < SCHEMA_FAULTS; s++) {
        int number = SCHEMA_NUMBER[s];
        refused(bad_schemas[s], alike(2), number, "a faulty schema", s);
        refused(bad_schemas[s], alike(MOST + 1), number, "a faulty schema with 17 views", s);
        refused(bad_schemas[s], (Record){0, NULL}, number, "a faulty schema with an empty record", s);
        for (int f = 0; f < FAULTS; f++)
            refused(bad_schemas[s], with(2, 0, faulty[f], 1, everything), number, "a faulty schema with a faulty view", f);
    }
    refused((Record){0, NULL}, alike(2), BIKUVOA_BAD_SCHEMA_SHAPE, "no schema", 0);
}

/* However few the views are. */
static void few_words(void)
{
    for (size_t n = 1; n <= MOST; n++)
        for (size_t rows_words = 0; rows_words <= ROOM; rows_words++)
            for (size_t order_words = 0; order_words <= ROOM; order_words++) {
                int row = (int)(10000 * n + 100 * rows_words + order_words);
                Record views = alike(n);
                if (rows_words < MOST || order_words < MOST) {
                    refused_with(rows_words, order_words, one_class, views, BIKUVOA_FEW_LENT_WORDS, "few words", row);
                    continue;
                }
                check(call(one_class, views, rows_words, order_words) == 0, "enough words", row);
                check(unaltered_but(MOST) && *groups == 1 && order[0] == BIT(n) - 1, "the answer in enough words", row);
            }
}

int main(void)
{
    make_faults();
    classes_by_hand();
    chains();
    all_inclusions();
    some_inclusions();
    axioms_by_hand();
    largest();
    layouts();
    counts_alone();
    large_sums();
    misfits();
    faulty_views();
    faulty_schemas();
    few_words();
    printf("catalogue from C: %d checks passed\n", passed);
    return 0;
}
