/* The checks of a concept, of a query and of a view, and so the refusals of a schema. */
#include "checks.h"
#include "check.h"
#include "constants.h"
#include "part.h"

static Count class_twice = {"a class twice", 0}, many_steps = {"too many steps for a view", 0};

/* What the tokens of an accepted concept name: the sets, and how many classes. */
static uint64_t named_in(Words concept, uint32_t *classes, uint32_t *attributes)
{
    size_t n = concept.at[BIKUVOA_AT_TOKENS];
    uint64_t tokens = 0, count = 0;
    *classes = *attributes = 0;
    for (size_t i = BIKUVOA_CONCEPT_SIZES; i < BIKUVOA_CONCEPT_SIZES + n; i++) {
        uint16_t sort = concept.at[i], argument = concept.at[i + n];
        tokens += sort == BIKUVOA_CLASS;
        if (sort == BIKUVOA_CLASS) *classes |= 1u << argument;
        if (sort == BIKUVOA_FORWARD || sort == BIKUVOA_BACKWARD) *attributes |= 1u << argument;
    }
    for (size_t a = 0; a < BIKUVOA_MAX_CLASSES; a++) count += *classes >> a & 1;
    class_twice.times += count < tokens;
    return count;
}

typedef uint16_t Check(const uint16_t *, size_t, const uint16_t *, size_t, uint32_t *, uint32_t *, uint64_t *);

/* What a check writes is what a walk over the tokens finds. */
static uint16_t check_names(const Words *r, Words concept, Check *by)
{
    uint32_t classes = UNTOUCHED_SET, attributes = UNTOUCHED_SET, class_set, attribute_set;
    uint64_t named = UNTOUCHED_OUT;
    uint16_t returned = by(r[SCHEMA].at, r[SCHEMA].words, concept.at, concept.words, &classes, &attributes, &named);
    if (returned)
        CHECK(classes == UNTOUCHED_SET && attributes == UNTOUCHED_SET && named == UNTOUCHED_OUT);
    else
        CHECK(named_in(concept, &class_set, &attribute_set) == named && classes == class_set && attributes == attribute_set);
    return returned;
}

static int has_mark(Words concept)
{
    size_t i = BIKUVOA_CONCEPT_SIZES, end = i + concept.at[BIKUVOA_AT_TOKENS];
    while (i < end && concept.at[i] != BIKUVOA_MARK) i++;
    return i < end;
}

Returned check_concept(const Words *r, Words concept)
{
    Returned as = {check_names(r, concept, bikuvoa_check_concept), check_names(r, concept, bikuvoa_check_query),
                   check_names(r, concept, bikuvoa_check_view)};
    int mark = is_among(as.query, BIKUVOA_BAD_TOKEN, BIKUVOA_BAD_STEPS) && has_mark(concept);
    int many = as.concept == 0 && concept.at[BIKUVOA_AT_STEPS] > BIKUVOA_VIEW_STEPS;
    CHECK(as.concept == (mark ? BIKUVOA_BAD_TOKEN : as.query));
    CHECK(as.view == (many ? BIKUVOA_BAD_STEPS : as.concept));
    many_steps.times += many != 0;
    return as;
}

/* The refusal of a schema before its axioms are looked at: for its shape, then for its loose word. */
static uint16_t bad_sizes(Words schema)
{
    const uint16_t *w = schema.at;
    if (schema.words < BIKUVOA_SCHEMA_SIZES || w[BIKUVOA_AT_CLASSES] > BIKUVOA_MAX_CLASSES
        || w[BIKUVOA_AT_ATTRIBUTES] > BIKUVOA_MAX_ATTRIBUTES || w[BIKUVOA_AT_CONSTANTS] > BIKUVOA_MAX_CONSTANTS
        || w[BIKUVOA_AT_AXIOMS] > BIKUVOA_MAX_AXIOMS || schema.words != BIKUVOA_SCHEMA_WORDS((size_t)w[BIKUVOA_AT_AXIOMS]))
        return BIKUVOA_BAD_SCHEMA_SHAPE;
    return w[BIKUVOA_AT_LOOSE] >> w[BIKUVOA_AT_CONSTANTS] ? BIKUVOA_BAD_LOOSE : 0;
}

static void check_refusals(const Asked *a)
{
    const uint16_t sizes = bad_sizes(a->r[SCHEMA]);
    CHECK(sizes ? a->schema == sizes : is_among(a->schema, BIKUVOA_BAD_AXIOM, BIKUVOA_BAD_AXIOM));
    CHECK(!a->schema || (a->query == a->schema && a->view == a->schema));
    CHECK(a->schema || is_among(a->query, BIKUVOA_BAD_CONCEPT_SHAPE, BIKUVOA_BAD_STEPS));
    CHECK(a->schema || is_among(a->view, BIKUVOA_BAD_CONCEPT_SHAPE, BIKUVOA_BAD_STEPS));
    undeclared_loose.times += a->schema == BIKUVOA_BAD_LOOSE;
}

const Part checks_part = {check_refusals, {&class_twice, &many_steps}};
