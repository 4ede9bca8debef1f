#include "records.h"
#include <stdlib.h>

uint16_t *take(size_t words)
{
    static uint16_t pool[4000];
    static size_t taken;
    taken += words;
    if (taken > sizeof pool / sizeof *pool) abort();
    return pool + taken - words;
}

Record concept_in(uint16_t *words, Tokens tokens)
{
    bikuvoa_concept c = bikuvoa_start_concept(words, BIKUVOA_CONCEPT_WORDS(tokens.n));
    for (size_t i = 0; i < tokens.n; i++) bikuvoa_token(&c, tokens.at[i].sort, tokens.at[i].argument);
    return (Record){c.length, c.words};
}

Record concept_of(Tokens tokens)
{
    return concept_in(take(BIKUVOA_CONCEPT_WORDS(tokens.n)), tokens);
}

Record declaring(size_t classes, size_t attributes, size_t constants)
{
    size_t words = BIKUVOA_SCHEMA_WORDS(0);
    bikuvoa_schema schema = bikuvoa_start_schema(take(words), words, classes, attributes, constants);
    return (Record){schema.length, schema.words};
}
