#include "deepest.h"

typedef struct {
    bikuvoa_concept c;
    size_t class, attributes;
    int marked;
} Deep;

#define ALL_REACHED -1

static void put_place(Deep *d, int i)
{
    if (d->marked && i % 4 == 0) bikuvoa_mark(&d->c, (size_t)i / 4 % BIKUVOA_MAX_MARKS);
    else bikuvoa_class(&d->c, d->class);
}

/* As many places as so many tokens can join, each with all that follow it. */
static void join(Deep *d, int tokens)
{
    for (int i = 0; i < (tokens + 1) / 2; i++) put_place(d, i);
    for (int i = 1; i < (tokens + 1) / 2; i++) bikuvoa_both(&d->c);
}

/* A path of one step in another, and what is left of the tokens in the innermost. Each is in a common object, by the first or
 * by the last of two paths, unless it is merely reached: the one of that depth, or all. */
static void nest(Deep *d, int depth, int reached, int last, int tokens)
{
    int merely = reached == ALL_REACHED || reached == depth;
    if (depth == 0) {
        join(d, tokens);
        return;
    }
    if (!merely && last) bikuvoa_empty(&d->c);
    bikuvoa_empty(&d->c);
    nest(d, depth - 1, reached, last, tokens - (merely ? 3 : 4));
    bikuvoa_forward(&d->c, (size_t)depth % d->attributes);
    if (merely) {
        bikuvoa_reached(&d->c);
        return;
    }
    if (!last) bikuvoa_empty(&d->c);
    bikuvoa_common(&d->c);
}

static void put_path(Deep *d, int first, int steps, int backward)
{
    bikuvoa_empty(&d->c);
    for (int i = first; i < first + steps; i++) {
        size_t attribute = (size_t)i % d->attributes;
        put_place(d, i);
        if (backward) bikuvoa_backward(&d->c, attribute);
        else bikuvoa_forward(&d->c, attribute);
    }
    bikuvoa_reached(&d->c);
}

Record deepest(uint16_t *words, size_t class, size_t attributes, int steps, int shape, int marked)
{
    static const int REACHED_AT[NESTED / 2] = {1, 6, 11, 16, ALL_REACHED};
    Deep d = {bikuvoa_start_concept(words, BIKUVOA_MAX_CONCEPT_WORDS), class, attributes, marked};
    if (shape < NESTED) {
        nest(&d, steps, REACHED_AT[shape / 2], shape % 2, BIKUVOA_MAX_TOKENS);
    } else if (shape == JOINED) {
        join(&d, BIKUVOA_MAX_TOKENS);
    } else if (shape != STAR) {
        put_path(&d, 0, steps, shape == BACKWARD_PATH);
    } else {
        bikuvoa_class(&d.c, class);
        for (int first = 0; first + 4 <= steps; first += 4) {
            put_path(&d, first, 4, 0);
            bikuvoa_both(&d.c);
        }
    }
    return (Record){d.c.length, words};
}

Record deepest_views(size_t first_class, size_t last_class, size_t attributes)
{
    static uint16_t words[BIKUVOA_MAX_CATALOGUE_WORDS];
    uint16_t view_words[BIKUVOA_MAX_CONCEPT_WORDS];
    bikuvoa_views views = bikuvoa_start_views(words, BIKUVOA_MAX_CATALOGUE_WORDS);
    for (int i = 0; i < BIKUVOA_MAX_VIEWS; i++) {
        Record view = deepest(view_words, i < SHAPES ? first_class : last_class, attributes, BIKUVOA_VIEW_STEPS, i % SHAPES, 0);
        bikuvoa_view(&views, view.at, view.words);
    }
    return (Record){views.length, words};
}
