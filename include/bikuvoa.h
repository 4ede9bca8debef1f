/* Bikuvoa: whether a query may be read from a stored view, stored views in order, the judging of states, and what a concept
 * names.
 *
 * Eleven functions over records of 16-bit words, in the machine's byte order, each record with its length in words. The format
 * is in docs/RECORDS.md; the builders below write it. Any words may be passed: each function returns 0, or the number of the
 * first refusal that applies (enum bikuvoa_refusal), and then no lent word and no out value is altered.
 *
 * Pointers. A record of length 0 and lent words of length 0 may be null pointers; no other pointer may be null. Lent words and
 * out values overlap nothing else that is passed.
 *
 * Threads. Nothing is kept between calls, so any number of threads may call at once, each with lent words and out values of
 * its own. They may share records that nobody writes meanwhile.
 *
 * Memory. No heap; for the stack see BIKUVOA_STACK_BYTES.
 *
 * Proved, for any words (crates/bikuvoa_c): what each of the eleven functions returns and writes, that it touches nothing else,
 * and that it ends. Not proved: the stack, which is measured, and the inline functions of this header, which are tested.
 *
 * C89 with <stdint.h>, any later C, and C++. */
#ifndef BIKUVOA_H
#define BIKUVOA_H

#include <stddef.h>
#include <stdint.h>
#include <string.h>

#if defined(__cplusplus) || (defined(__STDC_VERSION__) && __STDC_VERSION__ >= 199901L)
#define BIKUVOA_INLINE static inline
#elif defined(__GNUC__)
#define BIKUVOA_INLINE static __inline__
#else
#define BIKUVOA_INLINE static
#endif

#ifdef __cplusplus
extern "C" {
#endif

/* While the major version is 0, a new minor version may change the format of records. */
#define BIKUVOA_VERSION_MAJOR 0
#define BIKUVOA_VERSION_MINOR 8
#define BIKUVOA_VERSION_PATCH 0
#define BIKUVOA_VERSION (BIKUVOA_VERSION_MAJOR * 10000 + BIKUVOA_VERSION_MINOR * 100 + BIKUVOA_VERSION_PATCH)

/* The stack to give a thread for a call. Measured: of the shapes that tests/entries.c tries, the deepest (bikuvoa_decide, a
 * query of 64 tokens with 16 steps nested in each other) takes about half of it. That test runs each of them on a stack of
 * just this size. */
#define BIKUVOA_STACK_BYTES (512 * 1024)

/* Limits. */
#define BIKUVOA_MAX_CLASSES 24
#define BIKUVOA_MAX_ATTRIBUTES 8
#define BIKUVOA_MAX_CONSTANTS 4
#define BIKUVOA_MAX_MARKS 4
#define BIKUVOA_MAX_AXIOMS 96
#define BIKUVOA_MAX_TOKENS 64
#define BIKUVOA_QUERY_STEPS 16
#define BIKUVOA_VIEW_STEPS 6
#define BIKUVOA_MAX_OBJECTS 480
#define BIKUVOA_MAX_FACTS 15384
#define BIKUVOA_MAX_VIEWS 16

/* A schema, a concept and a state are size words, then their entries' left words, then their right words. These are the places
 * of the size words, and how many there are. */
#define BIKUVOA_AT_CLASSES 0
#define BIKUVOA_AT_ATTRIBUTES 1
#define BIKUVOA_AT_CONSTANTS 2
#define BIKUVOA_AT_AXIOMS 3
#define BIKUVOA_AT_LOOSE 4
#define BIKUVOA_SCHEMA_SIZES 5

#define BIKUVOA_AT_TOKENS 0
#define BIKUVOA_AT_STEPS 1
#define BIKUVOA_CONCEPT_SIZES 2

#define BIKUVOA_AT_OBJECTS 0
#define BIKUVOA_AT_FACTS 1
#define BIKUVOA_AT_CLASS_FACTS 2
#define BIKUVOA_STATE_SIZES 3

/* The words of a record with so many entries, and of the largest. */
#define BIKUVOA_SCHEMA_WORDS(axioms) (BIKUVOA_SCHEMA_SIZES + 2 * (axioms))
#define BIKUVOA_CONCEPT_WORDS(tokens) (BIKUVOA_CONCEPT_SIZES + 2 * (tokens))
#define BIKUVOA_STATE_WORDS(facts) (BIKUVOA_STATE_SIZES + 2 * (facts))
#define BIKUVOA_MAX_SCHEMA_WORDS BIKUVOA_SCHEMA_WORDS(BIKUVOA_MAX_AXIOMS)
#define BIKUVOA_MAX_CONCEPT_WORDS BIKUVOA_CONCEPT_WORDS(BIKUVOA_MAX_TOKENS)
#define BIKUVOA_MAX_STATE_WORDS BIKUVOA_STATE_WORDS(BIKUVOA_MAX_FACTS)

/* A catalogue is the count of its views and the length of each, in words, then their records one after the other. The place of
 * the count, how many words stand before the records, and the words of the largest. */
#define BIKUVOA_AT_VIEWS 0
#define BIKUVOA_CATALOGUE_SIZES(views) (1 + (views))
#define BIKUVOA_MAX_CATALOGUE_WORDS (BIKUVOA_CATALOGUE_SIZES(BIKUVOA_MAX_VIEWS) + BIKUVOA_MAX_VIEWS * BIKUVOA_MAX_CONCEPT_WORDS)

/* The least number of lent words for bikuvoa_decide. */
#define BIKUVOA_DECIDE_WORDS BIKUVOA_MAX_STATE_WORDS

/* An axiom's left word is its kind times BIKUVOA_BYTE_PART plus its subject. */
#define BIKUVOA_BYTE_PART 256
enum bikuvoa_axiom_kind {
    BIKUVOA_SUBCLASS = 1,
    BIKUVOA_TYPING = 2,
    BIKUVOA_NECESSARY = 3,
    BIKUVOA_SINGLE = 4,
    BIKUVOA_RELATES = 5
};

/* A token's left word is its sort. */
enum bikuvoa_token_sort {
    BIKUVOA_CLASS = 1,
    BIKUVOA_EVERYTHING = 2,
    BIKUVOA_CONSTANT = 3,
    BIKUVOA_BOTH = 4,
    BIKUVOA_EMPTY = 5,
    BIKUVOA_FORWARD = 6,
    BIKUVOA_BACKWARD = 7,
    BIKUVOA_REACHED = 8,
    BIKUVOA_COMMON = 9,
    BIKUVOA_MARK = 10
};

/* A fact's left word is its kind times BIKUVOA_OBJECT_PART plus its object. Kinds begin with the classes, whose facts are the
 * class facts; these are the first kind of attributes, the first of constants, the first of marks, and one past the last. */
#define BIKUVOA_OBJECT_PART 512
#define BIKUVOA_ATTRIBUTE_KINDS BIKUVOA_MAX_CLASSES
#define BIKUVOA_CONSTANT_KINDS (BIKUVOA_ATTRIBUTE_KINDS + BIKUVOA_MAX_ATTRIBUTES)
#define BIKUVOA_MARK_KINDS (BIKUVOA_CONSTANT_KINDS + BIKUVOA_MAX_CONSTANTS)
#define BIKUVOA_FACT_KINDS (BIKUVOA_MARK_KINDS + BIKUVOA_MAX_MARKS)

/* What the functions return. The records are checked in the order of the parameters, each by these numbers from the lowest
 * up, except that a schema is checked by 14 directly after 1, and a state by 15 directly after 9; and after them the attribute or
 * the lent words, where a function takes them. 3 to 6 may be of the query or of the view: bikuvoa_query_refusal tells which. Of a
 * catalogue the layout is checked first, by 13, then one view after the other by 3 to 6: the first that bikuvoa_view_refusal
 * refuses is at fault. */
enum bikuvoa_refusal {
    BIKUVOA_ACCEPTED = 0,
    BIKUVOA_BAD_SCHEMA_SHAPE = 1,
    BIKUVOA_BAD_AXIOM = 2,
    BIKUVOA_BAD_CONCEPT_SHAPE = 3,
    BIKUVOA_BAD_TOKEN = 4,
    BIKUVOA_BAD_PILE = 5,
    BIKUVOA_BAD_STEPS = 6,
    BIKUVOA_BAD_STATE_SHAPE = 7,
    BIKUVOA_BAD_FACT = 8,
    BIKUVOA_BAD_ORDER = 9,
    BIKUVOA_BAD_CONSTANTS = 10,
    BIKUVOA_FEW_LENT_WORDS = 11,
    BIKUVOA_BAD_ATTRIBUTE = 12,
    BIKUVOA_BAD_CATALOGUE = 13,
    BIKUVOA_BAD_LOOSE = 14,
    BIKUVOA_BAD_CLASS_FACTS = 15
};

BIKUVOA_INLINE const char *bikuvoa_refusal_text(uint16_t refusal)
{
    switch (refusal) {
    case BIKUVOA_ACCEPTED:
        return "accepted";
    case BIKUVOA_BAD_SCHEMA_SHAPE:
        return "schema: cut off, a size above its limit, or a length that does not fit the count of axioms";
    case BIKUVOA_BAD_AXIOM:
        return "schema: an axiom of unknown kind, or with a class or attribute that is not declared";
    case BIKUVOA_BAD_CONCEPT_SHAPE:
        return "query or view: cut off, no token, too many, or a length that does not fit the count of tokens";
    case BIKUVOA_BAD_TOKEN:
        return "query or view: a token of unknown sort, with an argument that is not declared or should be 0, or a mark "
               "where none may be";
    case BIKUVOA_BAD_PILE:
        return "query or view: a token without the concepts or paths that it takes, or not one concept at the end";
    case BIKUVOA_BAD_STEPS:
        return "query or view: a false count of steps, or more steps than it may have";
    case BIKUVOA_BAD_STATE_SHAPE:
        return "state: cut off, a size above its limit, or a length that does not fit the count of facts";
    case BIKUVOA_BAD_FACT:
        return "state: a fact of a kind that is not declared or of a mark that is not used, with an object that is not "
               "there, or with a right word that should be 0";
    case BIKUVOA_BAD_ORDER:
        return "state: facts that do not ascend, or a fact twice";
    case BIKUVOA_BAD_CONSTANTS:
        return "state: a declared constant or a used mark without an object or with several, or two constants that are "
               "not loose with the same object";
    case BIKUVOA_FEW_LENT_WORDS:
        return "lent words: too few";
    case BIKUVOA_BAD_ATTRIBUTE:
        return "attribute: not declared";
    case BIKUVOA_BAD_CATALOGUE:
        return "catalogue: no view, too many, or a length that does not fit the count and the length words";
    case BIKUVOA_BAD_LOOSE:
        return "schema: a constant that is loose and not declared";
    case BIKUVOA_BAD_CLASS_FACTS:
        return "state: a false count of class facts";
    default:
        return "a number that is no refusal";
    }
}

/* Checks a query without marks by itself, as for bikuvoa_select and the counts of links, and says what it names. In the class set
 * *classes bit a (1u << a) is 1 exactly if some token is class a. In the attribute set *attributes bit p is 1 exactly if some
 * step, forward or backward, is of attribute p. Higher bits are 0. *named is how many classes are named, each counted once.
 * Only the query's own tokens count, and not what the axioms mention; constants and marks are no names, and "everything" names
 * nothing. */
uint16_t bikuvoa_check_concept(const uint16_t *schema, size_t schema_words, const uint16_t *query, size_t query_words,
                               uint32_t *classes, uint32_t *attributes, uint64_t *named);

/* The same of a query that may have marks, as for bikuvoa_decide, bikuvoa_holds and bikuvoa_counterexample. */
uint16_t bikuvoa_check_query(const uint16_t *schema, size_t schema_words, const uint16_t *query, size_t query_words,
                             uint32_t *classes, uint32_t *attributes, uint64_t *named);

/* The same of a view: it may have BIKUVOA_VIEW_STEPS steps, where a query may have BIKUVOA_QUERY_STEPS, and no mark. */
uint16_t bikuvoa_check_view(const uint16_t *schema, size_t schema_words, const uint16_t *view, size_t view_words,
                            uint32_t *classes, uint32_t *attributes, uint64_t *named);

/* Which objects of the state the query, which has no marks, selects: lent word i becomes 1 if object i is in it and 0 if not,
 * for each of the N objects; later words are unaltered. *selected is how many are. A view may stand in the query's place.
 * Refused as BIKUVOA_FEW_LENT_WORDS if there are fewer than N lent words; BIKUVOA_MAX_OBJECTS are always enough. */
uint16_t bikuvoa_select(const uint16_t *schema, size_t schema_words, const uint16_t *query, size_t query_words,
                        const uint16_t *state, size_t state_words, uint16_t *lent, size_t lent_words,
                        uint64_t *selected);

/* *broken is 0 if every axiom holds in the state, and otherwise i + 1, where axiom i is the first broken one. */
uint16_t bikuvoa_legal(const uint16_t *schema, size_t schema_words, const uint16_t *state, size_t state_words,
                       uint64_t *broken);

/* *found is o + 1, where o is the lowest object in the query and outside the view, if the state is legal and has one,
 * and otherwise 0. Where the query has marks, the state's facts say which object each of them is: a mark that the query uses
 * has exactly one such fact, and any other mark has none. */
uint16_t bikuvoa_counterexample(const uint16_t *schema, size_t schema_words, const uint16_t *query, size_t query_words,
                                const uint16_t *view, size_t view_words, const uint16_t *state, size_t state_words,
                                uint64_t *found);

/* A link is a pair of the attribute. *links is how many of them have a first object that the query, which has no marks, selects:
 * for each selected object the number of its values, added up. The state need not be legal, and a view may stand in the query's
 * place. Any number may be passed as the attribute; refused as BIKUVOA_BAD_ATTRIBUTE if the schema does not declare it. */
uint16_t bikuvoa_links_by_first(const uint16_t *schema, size_t schema_words, const uint16_t *query, size_t query_words,
                                const uint16_t *state, size_t state_words, uint16_t attribute, uint64_t *links);

/* The same links, and always the same number, counted from the other side: for each object the number of selected objects that
 * have it as a value, added up. */
uint16_t bikuvoa_links_by_second(const uint16_t *schema, size_t schema_words, const uint16_t *query, size_t query_words,
                                 const uint16_t *state, size_t state_words, uint16_t attribute, uint64_t *links);

/* Whether in every legal finite state, of any size, each object in the query is in the view, whichever objects its marks are.
 * HELD, if so: *objects becomes 0; *object and the lent words stay as they were.
 * OPEN, if not: the lent words begin with the record of a legal state of *objects objects (1 to BIKUVOA_MAX_OBJECTS) in which
 * *object is in the query and outside the view, with a fact for each mark that the query uses; words after that record are
 * unaltered.
 * Both return 0: make the verdict with bikuvoa_verdict_of. Refused as BIKUVOA_FEW_LENT_WORDS if there are fewer than
 * BIKUVOA_DECIDE_WORDS lent words. */
uint16_t bikuvoa_decide(const uint16_t *schema, size_t schema_words, const uint16_t *query, size_t query_words,
                        const uint16_t *view, size_t view_words, uint16_t *lent, size_t lent_words, uint64_t *objects,
                        uint64_t *object);

/* The same question without a state and without lent words: *held becomes 1 if HELD and 0 if OPEN. A refused call leaves it as
 * it was; so begin with 0, and it is 1 afterwards only if HELD. */
uint16_t bikuvoa_holds(const uint16_t *schema, size_t schema_words, const uint16_t *query, size_t query_words,
                       const uint16_t *view, size_t view_words, uint64_t *held);

/* The views of a catalogue in order, narrow ones in front. View i is held by view j if bikuvoa_holds says so with i as its query
 * and j as its view. Views that hold each other are one group, and *groups is how many groups there are. A group is narrower
 * than another if it is held by that one. The next group is always, of those with no narrower group still to come, the one with
 * the lowest view number in it.
 * - rows: bit j of word i (rows[i] >> j & 1) is 1 exactly if view i is held by view j.
 * - order: bit i of word k (order[k] >> i & 1) is 1 exactly if view i is in the k-th group, from 0.
 * Of both the first BIKUVOA_MAX_VIEWS words are written, 0 where there is no such view or group, and later words are unaltered.
 * Refused as BIKUVOA_FEW_LENT_WORDS if either has fewer than BIKUVOA_MAX_VIEWS words, however many views there are. */
uint16_t bikuvoa_catalogue(const uint16_t *schema, size_t schema_words, const uint16_t *views, size_t views_words,
                           uint16_t *rows, size_t rows_words, uint16_t *order, size_t order_words, uint64_t *groups);

/* No verdict is 0, so that no truth test tells them apart and memory that was merely cleared is not HELD: compare with
 * == BIKUVOA_HELD.
 *
 * What HELD licenses: the list that the view selects has every object of the query, and may have more. Read it and keep what
 * is in the query. Only if the view is also HELD by the query is the list itself the answer. HELD speaks of legal states
 * alone: the store must keep every axiom true at each write, and its list up to date. (bikuvoa_legal tells of states of at most
 * BIKUVOA_MAX_OBJECTS objects.) */
enum bikuvoa_verdict { BIKUVOA_HELD = 1, BIKUVOA_OPEN = 2, BIKUVOA_REFUSED = 3 };

/* The verdict of bikuvoa_decide by what it returned and *objects. A pointer, so that the call may stand in the argument:
 * bikuvoa_verdict_of(bikuvoa_decide(.., &objects, &object), &objects). */
BIKUVOA_INLINE enum bikuvoa_verdict bikuvoa_verdict_of(uint16_t returned, const uint64_t *objects)
{
    if (returned != BIKUVOA_ACCEPTED) return BIKUVOA_REFUSED;
    return *objects == 0 ? BIKUVOA_HELD : BIKUVOA_OPEN;
}

/* Builders. A record grows in an array of the caller's and is whole after each call: pass its words and length on.
 * - If the room does not suffice, nothing is written past it, and length becomes and stays 0: every function refuses that.
 * - Counts are kept, the steps of a concept and the class facts of a state too. Axioms and tokens stand in the order in which
 *   they are added. Facts may be added in any order; they are put in ascending order, and one that is there already is not put
 *   again.
 * - A number too large for its place becomes one that no schema declares, so that the record is refused and not misread.
 * - Each addition moves words along: for the largest state that is some ten milliseconds in all. */
typedef struct {
    uint16_t *words;
    size_t room;   /* the words of the array */
    size_t length; /* the words of the record, or 0 */
} bikuvoa_schema;

typedef struct {
    uint16_t *words;
    size_t room;
    size_t length;
} bikuvoa_concept;

typedef struct {
    uint16_t *words;
    size_t room;
    size_t length;
} bikuvoa_state;

typedef struct {
    uint16_t *words;
    size_t room;
    size_t length;
} bikuvoa_views;

/* The next four are for the builders alone. The number as a part of a word, or the largest such part. */
BIKUVOA_INLINE size_t bikuvoa_part(size_t number, size_t limit)
{
    return number < limit ? number : limit - 1;
}

BIKUVOA_INLINE uint16_t bikuvoa_word(size_t number)
{
    return bikuvoa_part(number, 65536) & 65535;
}

/* Size words of 0; the record's length. */
BIKUVOA_INLINE size_t bikuvoa_start(uint16_t *words, size_t room, size_t sizes)
{
    if (room < sizes) return 0;
    memset(words, 0, sizes * sizeof *words);
    return sizes;
}

/* Puts an entry at a place, from 0, among those of a record, or at their end if there is no such place; the record's new
 * length. */
BIKUVOA_INLINE size_t bikuvoa_insert(uint16_t *words, size_t room, size_t length, size_t sizes, size_t counter,
                                     size_t place, size_t left, size_t right)
{
    size_t n, l, r;
    if (length == 0 || room < length + 2) return 0;
    n = (length - sizes) / 2;
    if (n == 65535) return 0;
    if (place > n) place = n;
    l = sizes + place;
    r = l + n;
    memmove(words + r + 2, words + r, (n - place) * sizeof *words);
    memmove(words + l + 1, words + l, n * sizeof *words);
    words[l] = bikuvoa_word(left);
    words[r + 1] = bikuvoa_word(right);
    words[counter] = bikuvoa_word(n + 1);
    return length + 2;
}

/* A schema of so many classes, attributes and constants, none of them loose, without axioms. */
BIKUVOA_INLINE bikuvoa_schema bikuvoa_start_schema(uint16_t *words, size_t room, size_t classes, size_t attributes,
                                                   size_t constants)
{
    bikuvoa_schema s;
    s.words = words;
    s.room = room;
    s.length = bikuvoa_start(words, room, BIKUVOA_SCHEMA_SIZES);
    if (s.length) {
        words[BIKUVOA_AT_CLASSES] = bikuvoa_word(classes);
        words[BIKUVOA_AT_ATTRIBUTES] = bikuvoa_word(attributes);
        words[BIKUVOA_AT_CONSTANTS] = bikuvoa_word(constants);
    }
    return s;
}

/* Makes constant k loose: it may name the same object as any other constant. */
BIKUVOA_INLINE void bikuvoa_loose(bikuvoa_schema *schema, size_t k)
{
    if (schema->length == 0) return;
    schema->words[BIKUVOA_AT_LOOSE] = bikuvoa_word(schema->words[BIKUVOA_AT_LOOSE] | 1u << bikuvoa_part(k, 16));
}

/* Adds an axiom by its words. */
BIKUVOA_INLINE void bikuvoa_axiom(bikuvoa_schema *schema, size_t left, size_t right)
{
    schema->length = bikuvoa_insert(schema->words, schema->room, schema->length, BIKUVOA_SCHEMA_SIZES,
                                    BIKUVOA_AT_AXIOMS, schema->length, left, right);
}

BIKUVOA_INLINE size_t bikuvoa_bytes(size_t high, size_t low)
{
    return bikuvoa_part(high, BIKUVOA_BYTE_PART) * BIKUVOA_BYTE_PART + bikuvoa_part(low, BIKUVOA_BYTE_PART);
}

/* Each object of class a is in class b. */
BIKUVOA_INLINE void bikuvoa_subclass(bikuvoa_schema *schema, size_t a, size_t b)
{
    bikuvoa_axiom(schema, bikuvoa_bytes(BIKUVOA_SUBCLASS, a), b);
}

/* Each value of attribute p at an object of a is in b. */
BIKUVOA_INLINE void bikuvoa_typing(bikuvoa_schema *schema, size_t a, size_t p, size_t b)
{
    bikuvoa_axiom(schema, bikuvoa_bytes(BIKUVOA_TYPING, a), bikuvoa_bytes(p, b));
}

/* Each object of a has a value of p. */
BIKUVOA_INLINE void bikuvoa_necessary(bikuvoa_schema *schema, size_t a, size_t p)
{
    bikuvoa_axiom(schema, bikuvoa_bytes(BIKUVOA_NECESSARY, a), p);
}

/* Each object of a has at most one value of p. */
BIKUVOA_INLINE void bikuvoa_single(bikuvoa_schema *schema, size_t a, size_t p)
{
    bikuvoa_axiom(schema, bikuvoa_bytes(BIKUVOA_SINGLE, a), p);
}

/* Each pair of p goes from an object of a to an object of b. Here the attribute comes first; in bikuvoa_typing the class does. */
BIKUVOA_INLINE void bikuvoa_relates(bikuvoa_schema *schema, size_t p, size_t a, size_t b)
{
    bikuvoa_axiom(schema, bikuvoa_bytes(BIKUVOA_RELATES, p), bikuvoa_bytes(a, b));
}

/* A concept without tokens. A token follows what it takes: see docs/RECORDS.md. */
BIKUVOA_INLINE bikuvoa_concept bikuvoa_start_concept(uint16_t *words, size_t room)
{
    bikuvoa_concept c;
    c.words = words;
    c.room = room;
    c.length = bikuvoa_start(words, room, BIKUVOA_CONCEPT_SIZES);
    return c;
}

/* Adds a token by its words. */
BIKUVOA_INLINE void bikuvoa_token(bikuvoa_concept *c, size_t sort, size_t argument)
{
    c->length = bikuvoa_insert(c->words, c->room, c->length, BIKUVOA_CONCEPT_SIZES, BIKUVOA_AT_TOKENS, c->length, sort,
                               argument);
    if (c->length && (sort == BIKUVOA_FORWARD || sort == BIKUVOA_BACKWARD)) c->words[BIKUVOA_AT_STEPS]++;
}

/* Each puts a concept: the class a, everything, the constant k, the mark k. All places with the same mark are the same object,
 * and different marks may be one object. Marks may stand in a query for bikuvoa_decide, bikuvoa_holds and
 * bikuvoa_counterexample alone. */
BIKUVOA_INLINE void bikuvoa_class(bikuvoa_concept *c, size_t a)
{
    bikuvoa_token(c, BIKUVOA_CLASS, a);
}

BIKUVOA_INLINE void bikuvoa_everything(bikuvoa_concept *c)
{
    bikuvoa_token(c, BIKUVOA_EVERYTHING, 0);
}

BIKUVOA_INLINE void bikuvoa_constant(bikuvoa_concept *c, size_t k)
{
    bikuvoa_token(c, BIKUVOA_CONSTANT, k);
}

BIKUVOA_INLINE void bikuvoa_mark(bikuvoa_concept *c, size_t k)
{
    bikuvoa_token(c, BIKUVOA_MARK, k);
}

/* Both of the last two concepts. */
BIKUVOA_INLINE void bikuvoa_both(bikuvoa_concept *c)
{
    bikuvoa_token(c, BIKUVOA_BOTH, 0);
}

/* Puts the empty path. */
BIKUVOA_INLINE void bikuvoa_empty(bikuvoa_concept *c)
{
    bikuvoa_token(c, BIKUVOA_EMPTY, 0);
}

/* Takes the concept on top and the path below it, and puts that path with one step more, along p or against p, that lands on the
 * concept. */
BIKUVOA_INLINE void bikuvoa_forward(bikuvoa_concept *c, size_t p)
{
    bikuvoa_token(c, BIKUVOA_FORWARD, p);
}

BIKUVOA_INLINE void bikuvoa_backward(bikuvoa_concept *c, size_t p)
{
    bikuvoa_token(c, BIKUVOA_BACKWARD, p);
}

/* The objects from which the last path leads to some object. */
BIKUVOA_INLINE void bikuvoa_reached(bikuvoa_concept *c)
{
    bikuvoa_token(c, BIKUVOA_REACHED, 0);
}

/* The objects from which the last two paths lead to a common object. */
BIKUVOA_INLINE void bikuvoa_common(bikuvoa_concept *c)
{
    bikuvoa_token(c, BIKUVOA_COMMON, 0);
}

/* A state of so many objects, numbered from 0, without facts. */
BIKUVOA_INLINE bikuvoa_state bikuvoa_start_state(uint16_t *words, size_t room, size_t objects)
{
    bikuvoa_state s;
    s.words = words;
    s.room = room;
    s.length = bikuvoa_start(words, room, BIKUVOA_STATE_SIZES);
    if (s.length) words[BIKUVOA_AT_OBJECTS] = bikuvoa_word(objects);
    return s;
}

/* Adds a fact by its words. */
BIKUVOA_INLINE void bikuvoa_fact(bikuvoa_state *state, size_t left, size_t right)
{
    const uint16_t *lefts, *rights;
    size_t n, low = 0, high;
    if (state->length == 0) return;
    left = bikuvoa_word(left);
    right = bikuvoa_word(right);
    high = n = (state->length - BIKUVOA_STATE_SIZES) / 2;
    lefts = state->words + BIKUVOA_STATE_SIZES;
    rights = lefts + n;
    while (low < high) {
        size_t middle = low + (high - low) / 2;
        if (lefts[middle] < left || (lefts[middle] == left && rights[middle] < right))
            low = middle + 1;
        else
            high = middle;
    }
    if (low < n && lefts[low] == left && rights[low] == right) return;
    state->length = bikuvoa_insert(state->words, state->room, state->length, BIKUVOA_STATE_SIZES, BIKUVOA_AT_FACTS,
                                   low, left, right);
    if (state->length && left / BIKUVOA_OBJECT_PART < BIKUVOA_ATTRIBUTE_KINDS) state->words[BIKUVOA_AT_CLASS_FACTS]++;
}

/* The left word of a fact; number is below limit, or the kind is the largest that a word can have. */
BIKUVOA_INLINE size_t bikuvoa_left(size_t first_kind, size_t number, size_t limit, size_t object)
{
    size_t kind = number < limit ? first_kind + number : 65535 / BIKUVOA_OBJECT_PART;
    return kind * BIKUVOA_OBJECT_PART + bikuvoa_part(object, BIKUVOA_OBJECT_PART);
}

/* The object is in class a. */
BIKUVOA_INLINE void bikuvoa_member(bikuvoa_state *state, size_t a, size_t object)
{
    bikuvoa_fact(state, bikuvoa_left(0, a, BIKUVOA_MAX_CLASSES, object), 0);
}

/* (first, second) is a pair of attribute p. */
BIKUVOA_INLINE void bikuvoa_pair(bikuvoa_state *state, size_t p, size_t first, size_t second)
{
    bikuvoa_fact(state, bikuvoa_left(BIKUVOA_ATTRIBUTE_KINDS, p, BIKUVOA_MAX_ATTRIBUTES, first), second);
}

/* Constant k names the object. */
BIKUVOA_INLINE void bikuvoa_name(bikuvoa_state *state, size_t k, size_t object)
{
    bikuvoa_fact(state, bikuvoa_left(BIKUVOA_CONSTANT_KINDS, k, BIKUVOA_MAX_CONSTANTS, object), 0);
}

/* Mark k is the object. */
BIKUVOA_INLINE void bikuvoa_choose(bikuvoa_state *state, size_t k, size_t object)
{
    bikuvoa_fact(state, bikuvoa_left(BIKUVOA_MARK_KINDS, k, BIKUVOA_MAX_MARKS, object), 0);
}

/* A catalogue without views. */
BIKUVOA_INLINE bikuvoa_views bikuvoa_start_views(uint16_t *words, size_t room)
{
    bikuvoa_views v;
    v.words = words;
    v.room = room;
    v.length = bikuvoa_start(words, room, BIKUVOA_CATALOGUE_SIZES(0));
    return v;
}

/* Adds a view by its record, which lies elsewhere. */
BIKUVOA_INLINE void bikuvoa_view(bikuvoa_views *views, const uint16_t *view, size_t view_words)
{
    uint16_t *words = views->words;
    size_t n, sizes, length = views->length;
    views->length = 0;
    if (length == 0 || views->room - length <= view_words) return;
    n = words[BIKUVOA_AT_VIEWS];
    if (n == 65535) return;
    sizes = BIKUVOA_CATALOGUE_SIZES(n);
    memmove(words + sizes + 1, words + sizes, (length - sizes) * sizeof *words);
    words[sizes] = bikuvoa_word(view_words);
    if (view_words) memcpy(words + length + 1, view, view_words * sizeof *words);
    words[BIKUVOA_AT_VIEWS] = bikuvoa_word(n + 1);
    views->length = length + 1 + view_words;
}

/* Reading a state record that is accepted, as the one written with OPEN is: its number of facts, how many of them are class
 * facts, its length in words, and of fact i the kind, the object, and the second object of a pair. Facts ascend, so the first
 * bikuvoa_class_facts(state) of them are the class facts: a list of classes needs no walk over the others. */
BIKUVOA_INLINE size_t bikuvoa_facts(const uint16_t *state)
{
    return state[BIKUVOA_AT_FACTS];
}

BIKUVOA_INLINE size_t bikuvoa_class_facts(const uint16_t *state)
{
    return state[BIKUVOA_AT_CLASS_FACTS];
}

BIKUVOA_INLINE size_t bikuvoa_state_length(const uint16_t *state)
{
    return BIKUVOA_STATE_WORDS(bikuvoa_facts(state));
}

BIKUVOA_INLINE size_t bikuvoa_fact_kind(const uint16_t *state, size_t i)
{
    size_t left = state[BIKUVOA_STATE_SIZES + i];
    return left / BIKUVOA_OBJECT_PART;
}

BIKUVOA_INLINE size_t bikuvoa_fact_object(const uint16_t *state, size_t i)
{
    size_t left = state[BIKUVOA_STATE_SIZES + i];
    return left % BIKUVOA_OBJECT_PART;
}

BIKUVOA_INLINE size_t bikuvoa_fact_second(const uint16_t *state, size_t i)
{
    return state[BIKUVOA_STATE_SIZES + bikuvoa_facts(state) + i];
}

/* One record at a time: the refusal that it gets in that place, or 0. A state's is what bikuvoa_legal returns, unless the query
 * has marks. So after a refusal of 3 to 6 the query is at fault if bikuvoa_query_refusal is not 0, and otherwise the view. */
BIKUVOA_INLINE uint16_t bikuvoa_concept_refusal(const uint16_t *schema, size_t schema_words, const uint16_t *query,
                                              size_t query_words)
{
    uint32_t classes = 0, attributes = 0;
    uint64_t named = 0;
    return bikuvoa_check_concept(schema, schema_words, query, query_words, &classes, &attributes, &named);
}

BIKUVOA_INLINE uint16_t bikuvoa_query_refusal(const uint16_t *schema, size_t schema_words, const uint16_t *query,
                                            size_t query_words)
{
    uint32_t classes = 0, attributes = 0;
    uint64_t named = 0;
    return bikuvoa_check_query(schema, schema_words, query, query_words, &classes, &attributes, &named);
}

BIKUVOA_INLINE uint16_t bikuvoa_view_refusal(const uint16_t *schema, size_t schema_words, const uint16_t *view,
                                           size_t view_words)
{
    uint32_t classes = 0, attributes = 0;
    uint64_t named = 0;
    return bikuvoa_check_view(schema, schema_words, view, view_words, &classes, &attributes, &named);
}

/* With "everything" as the query, which no schema refuses. */
BIKUVOA_INLINE uint16_t bikuvoa_schema_refusal(const uint16_t *schema, size_t schema_words)
{
    uint16_t words[BIKUVOA_CONCEPT_WORDS(1)];
    bikuvoa_concept query = bikuvoa_start_concept(words, BIKUVOA_CONCEPT_WORDS(1));
    bikuvoa_everything(&query);
    return bikuvoa_query_refusal(schema, schema_words, query.words, query.length);
}

#ifdef __cplusplus
}
#endif

#endif
