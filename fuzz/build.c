#include "build.h"
#include "marks.h"

static Words arbitrary(Input *in, int place)
{
    Words w = fenced(place, byte(in));
    for (size_t i = 0; i < w.words; i++) {
        size_t low = byte(in);
        w.at[i] = (uint16_t)(byte(in) * 256 + low);
    }
    return w;
}

void arbitrary_records(Input *in, Words *r)
{
    for (int place = SCHEMA; place <= VIEWS; place++) r[place] = arbitrary(in, place);
}

typedef struct {
    size_t classes, attributes, constants;
    size_t marks; /* that a concept may have: none but the query has any */
} Declared;

/* Mostly few, so that what is said of them meets; or any number up to the limits. Half of the queries have no marks. */
static Declared some_declared(Input *in)
{
    int few = byte(in) % 4 != 0;
    Declared d;
    d.classes = below(in, few ? 5 : BIKUVOA_MAX_CLASSES + 1);
    d.attributes = below(in, few ? 4 : BIKUVOA_MAX_ATTRIBUTES + 1);
    d.constants = below(in, few ? 3 : BIKUVOA_MAX_CONSTANTS + 1);
    d.marks = byte(in) % 2 ? 1 + below(in, few ? 2 : BIKUVOA_MAX_MARKS) : 0;
    return d;
}

static Words built_schema(Input *in, Declared d)
{
    uint16_t words[BIKUVOA_MAX_SCHEMA_WORDS];
    bikuvoa_schema s = bikuvoa_start_schema(words, BIKUVOA_MAX_SCHEMA_WORDS, d.classes, d.attributes, d.constants);
    for (size_t k = 0, loose = byte(in); k < d.constants; k++)
        if (loose >> k & 1) bikuvoa_loose(&s, k);
    for (size_t n = d.classes && d.attributes ? below(in, 12) : 0; n > 0; n--) {
        size_t kind = below(in, 5), a = below(in, d.classes), b = below(in, d.classes), p = below(in, d.attributes);
        if (kind == 0) bikuvoa_subclass(&s, a, b);
        if (kind == 1) bikuvoa_typing(&s, a, p, b);
        if (kind == 2) bikuvoa_necessary(&s, a, p);
        if (kind == 3) bikuvoa_single(&s, a, p);
        if (kind == 4) bikuvoa_relates(&s, p, a, b);
    }
    return copied(SCHEMA, s.words, s.length);
}

static void put_concept(Input *in, Declared d, bikuvoa_concept *c, size_t *steps);

static void put_path(Input *in, Declared d, bikuvoa_concept *c, size_t *steps)
{
    bikuvoa_empty(c);
    for (size_t n = d.attributes ? below(in, 4) : 0; n > 0 && *steps > 0; n--) {
        size_t p = below(in, 2 * d.attributes);
        --*steps;
        put_concept(in, d, c, steps);
        if (p < d.attributes) bikuvoa_forward(c, p);
        else bikuvoa_backward(c, p - d.attributes);
    }
}

/* Mostly several at once: an object may be in all of them if at most one is not loose. */
static void put_constants(Input *in, Declared d, bikuvoa_concept *c)
{
    bikuvoa_constant(c, below(in, d.constants));
    for (size_t n = below(in, 3); n > 0; n--) {
        bikuvoa_constant(c, below(in, d.constants));
        bikuvoa_both(c);
    }
}

/* An input that has ended gives "everything", so that this ends. */
static void put_concept(Input *in, Declared d, bikuvoa_concept *c, size_t *steps)
{
    size_t sort = in->left ? byte(in) % 9 : 0;
    if (sort == 1 && d.constants) {
        put_constants(in, d, c);
    } else if (sort == 8 && d.marks) {
        bikuvoa_mark(c, below(in, d.marks));
    } else if (sort == 2) {
        put_concept(in, d, c, steps);
        put_concept(in, d, c, steps);
        bikuvoa_both(c);
    } else if (sort == 3 || sort == 4) {
        put_path(in, d, c, steps);
        bikuvoa_reached(c);
    } else if (sort == 5) {
        put_path(in, d, c, steps);
        put_path(in, d, c, steps);
        bikuvoa_common(c);
    } else if (sort > 5 && d.classes) {
        bikuvoa_class(c, below(in, d.classes));
    } else {
        bikuvoa_everything(c);
    }
}

/* Two values that are marks, perhaps the same; or, where marks may not stand, one value of two attributes. So what one mark at
 * two places says is often asked. */
static void put_two_values(Input *in, Declared d, bikuvoa_concept *c)
{
    for (int i = 0; i < 2; i++) {
        bikuvoa_empty(c);
        if (d.marks) bikuvoa_mark(c, below(in, d.marks));
        else bikuvoa_everything(c);
        bikuvoa_forward(c, below(in, d.attributes));
        if (d.marks) bikuvoa_reached(c);
    }
    if (d.marks) bikuvoa_both(c);
    else bikuvoa_common(c);
}

/* From as many bytes as may be. */
static bikuvoa_concept some_concept(Input *in, Declared d, uint16_t *words, size_t bytes, size_t steps)
{
    bikuvoa_concept c = bikuvoa_start_concept(words, BIKUVOA_MAX_CONCEPT_WORDS);
    Input part = {in->at, below(in, bytes)};
    if (part.left > in->left) part.left = in->left;
    part.at = in->at;
    in->at += part.left;
    in->left -= part.left;
    if (d.attributes && byte(&part) % 4 == 1) put_two_values(&part, d, &c);
    else put_concept(&part, d, &c, &steps);
    return c;
}

static Words built_concept(Input *in, Declared d, int place, size_t steps)
{
    uint16_t words[BIKUVOA_MAX_CONCEPT_WORDS];
    bikuvoa_concept c;
    if (place != QUERY) d.marks = 0;
    c = some_concept(in, d, words, 40, steps);
    return copied(place, c.words, c.length);
}

/* Mostly few views, or up to one too many; the query and the view may be among them. */
static Words built_views(Input *in, Declared d, const Words *r)
{
    uint16_t words[BIKUVOA_CATALOGUE_SIZES(BIKUVOA_MAX_VIEWS + 1) + (BIKUVOA_MAX_VIEWS + 1) * BIKUVOA_MAX_CONCEPT_WORDS];
    bikuvoa_views v = bikuvoa_start_views(words, sizeof words / sizeof *words);
    d.marks = 0;
    for (size_t n = byte(in) % 8 ? 1 + below(in, 5) : below(in, BIKUVOA_MAX_VIEWS + 2); n > 0; n--) {
        uint16_t view[BIKUVOA_MAX_CONCEPT_WORDS];
        size_t which = below(in, 8);
        bikuvoa_concept c = some_concept(in, d, view, which < 2 ? 1 : 8, BIKUVOA_VIEW_STEPS);
        if (which < 2) bikuvoa_view(&v, r[QUERY + which].at, r[QUERY + which].words);
        else bikuvoa_view(&v, c.words, c.length);
    }
    return copied(VIEWS, v.words, v.length);
}

/* Now and then a constant or a mark of the query is left out, or a mark gets one more object. */
static Words built_state(Input *in, Declared d, Words query)
{
    uint16_t words[BIKUVOA_STATE_WORDS(40)];
    size_t n = d.constants + below(in, 8);
    unsigned used = query.words ? used_in(query) : 0;
    bikuvoa_state s = bikuvoa_start_state(words, BIKUVOA_STATE_WORDS(40), n);
    for (size_t k = 0; k < d.constants; k++)
        if (!in->left || byte(in) % 32) bikuvoa_name(&s, k, in->left ? below(in, n) : k);
    for (size_t k = 0; k < d.marks; k++) {
        if ((used >> k & 1) && byte(in) % 32 != 1) bikuvoa_choose(&s, k, below(in, n));
        if (byte(in) % 32 == 1) bikuvoa_choose(&s, k, below(in, n));
    }
    for (size_t facts = n ? below(in, 32) : 0; facts > 0; facts--) {
        size_t kind = below(in, d.classes + d.attributes), object = below(in, n), second = below(in, n);
        if (kind < d.classes) bikuvoa_member(&s, kind, object);
        else if (d.attributes) bikuvoa_pair(&s, kind - d.classes, object, second);
    }
    return copied(STATE, s.words, s.length);
}

void built_records(Input *in, Words *r)
{
    Declared d = some_declared(in);
    r[SCHEMA] = built_schema(in, d);
    r[QUERY] = built_concept(in, d, QUERY, BIKUVOA_QUERY_STEPS);
    r[VIEW] = built_concept(in, d, VIEW, BIKUVOA_VIEW_STEPS);
    r[STATE] = built_state(in, d, r[QUERY]);
    r[VIEWS] = built_views(in, d, r);
}

void damage(Input *in, Words *r)
{
    Words *w = &r[below(in, VIEWS + 1)];
    size_t way = below(in, 8);
    if (way == 0 && w->words) w->words--;
    else if (way == 1 && w->words) w->words--, w->at++;
    else if (w->words) w->at[below(in, w->words)] ^= (uint16_t)(1 << below(in, 16));
}
