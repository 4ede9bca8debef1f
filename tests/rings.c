#include "rings.h"

const size_t RING_OBJECTS[RINGS] = {4, 63, 64, 65, 127, 128, 129, 191, 192, 193, 256, 257, 383, 384, 385, 479, 480};

Record ring(size_t n)
{
    static uint16_t words[BIKUVOA_STATE_WORDS(BIKUVOA_MAX_OBJECTS + 1)];
    bikuvoa_state state = bikuvoa_start_state(words, sizeof words / sizeof *words, n);
    for (size_t d = 0; d < n; d++) bikuvoa_pair(&state, 0, d, (d + 1) % n);
    bikuvoa_pair(&state, 0, n - 1, n - 1);
    return (Record){state.length, state.words};
}

enum { PADDED_WORDS = BIKUVOA_CONCEPT_WORDS(BIKUVOA_MAX_TOKENS) };

static Record padded(uint16_t *words, Tokens tokens, size_t pairs)
{
    bikuvoa_concept c = bikuvoa_start_concept(words, PADDED_WORDS);
    for (size_t i = 0; i < pairs; i++) bikuvoa_token(&c, BIKUVOA_EVERYTHING, 0);
    for (size_t i = 0; i < tokens.n; i++) bikuvoa_token(&c, tokens.at[i].sort, tokens.at[i].argument);
    for (size_t i = 0; i < pairs; i++) bikuvoa_token(&c, BIKUVOA_BOTH, 0);
    return (Record){c.length, c.words};
}

Record own_value(size_t pairs)
{
    static uint16_t words[PADDED_WORDS];
    return padded(words, (Tokens)TOKENS(EMPTY, EVERYTHING, FORWARD(0), EMPTY, COMMON), pairs);
}

Record value_of_value(size_t pairs)
{
    static uint16_t words[PADDED_WORDS];
    return padded(words, (Tokens)TOKENS(EMPTY, EVERYTHING, FORWARD(0), EVERYTHING, FORWARD(0), EMPTY, EVERYTHING, FORWARD(0),
                                        COMMON), pairs);
}

Record chain(int steps)
{
    static uint16_t words[BIKUVOA_MAX_CONCEPT_WORDS];
    bikuvoa_concept c = bikuvoa_start_concept(words, BIKUVOA_MAX_CONCEPT_WORDS);
    bikuvoa_empty(&c);
    for (int i = 0; i < steps; i++) {
        bikuvoa_everything(&c);
        bikuvoa_forward(&c, 0);
    }
    bikuvoa_reached(&c);
    return (Record){c.length, c.words};
}
