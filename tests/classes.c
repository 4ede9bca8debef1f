/* Every class: what a query, each kind of axiom and a view make of each of the 24 classes beside each of the others, with the
 * verdicts by hand. Not proved; it prints how many checks passed. */
#include "verdict.h"
#include <stdio.h>

enum { CLASSES = BIKUVOA_MAX_CLASSES };
enum { P };

/* The concepts: a class; with a value in it; with any value; in it and with values in two classes; with one value in these two. */
static Record in[CLASSES], to[CLASSES], to_any, and_to_two[CLASSES], to_both;
static Record no_axioms;

static void make_records(void)
{
    for (uint16_t a = 0; a < CLASSES; a++) {
        in[a] = concept_of((Tokens)TOKENS(CLASS(a)));
        to[a] = concept_of((Tokens)TOKENS(EMPTY, CLASS(a), FORWARD(P), REACHED));
        and_to_two[a] = concept_of((Tokens)TOKENS(CLASS(a), EMPTY, CLASS(0), FORWARD(P), REACHED, BOTH, EMPTY, CLASS(23),
                                                  FORWARD(P), REACHED, BOTH));
    }
    to_any = concept_of((Tokens)TOKENS(EMPTY, EVERYTHING, FORWARD(P), REACHED));
    to_both = concept_of((Tokens)TOKENS(EMPTY, CLASS(0), CLASS(23), BOTH, FORWARD(P), REACHED));
    no_axioms = declaring(CLASSES, 1, 0);
}

static bikuvoa_schema start(uint16_t *words)
{
    return bikuvoa_start_schema(words, BIKUVOA_SCHEMA_WORDS(2), CLASSES, 1, 0);
}

/* What the axioms say of classes a and b, asked of every class. */
static void pair_of(uint16_t a, uint16_t b)
{
    uint16_t words[4][BIKUVOA_SCHEMA_WORDS(2)];
    bikuvoa_schema below = start(words[0]), typed = start(words[1]), related = start(words[2]), single = start(words[3]);
    bikuvoa_subclass(&below, a, b);
    bikuvoa_necessary(&typed, a, P);
    bikuvoa_typing(&typed, a, P, b);
    bikuvoa_relates(&related, P, a, b);
    bikuvoa_single(&single, a, P);
    Record domain_and_range = {related.length, related.words};
    int row = 100 * a + b;
    verdict(no_axioms, in[a], in[b], b == a, "a class by itself", row);
    for (uint16_t c = 0; c < CLASSES; c++) {
        verdict((Record){below.length, below.words}, in[a], in[c], c == a || c == b, "a subclass", row);
        verdict((Record){typed.length, typed.words}, in[a], to[c], c == b, "a typed value", row);
        verdict(domain_and_range, to_any, in[c], c == a, "the domain", row);
        verdict(domain_and_range, to_any, to[c], c == b, "the range", row);
    }
    verdict((Record){typed.length, typed.words}, in[b], to_any, b == a, "a needed value", row);
    verdict((Record){single.length, single.words}, and_to_two[b], to_both, b == a, "a single value", row);
}

int main(void)
{
    make_records();
    for (uint16_t a = 0; a < CLASSES; a++)
        for (uint16_t b = 0; b < CLASSES; b++) pair_of(a, b);
    printf("classes from C: %d checks passed\n", passed);
    return 0;
}
