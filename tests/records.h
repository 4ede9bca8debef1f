/* What the tests of the entries share: records made from tables of tokens. */
#ifndef RECORDS_H
#define RECORDS_H

#include "bikuvoa.h"

typedef struct {
    size_t words;
    const uint16_t *at;
} Record;

typedef struct {
    uint16_t sort, argument;
} Token;

typedef struct {
    size_t n;
    const Token *at;
} Tokens;

#define TOKENS(...) {sizeof((Token[]){__VA_ARGS__}) / sizeof(Token), (const Token[]){__VA_ARGS__}}
#define CLASS(a) {BIKUVOA_CLASS, a}
#define EVERYTHING {BIKUVOA_EVERYTHING, 0}
#define CONSTANT(k) {BIKUVOA_CONSTANT, k}
#define BOTH {BIKUVOA_BOTH, 0}
#define EMPTY {BIKUVOA_EMPTY, 0}
#define FORWARD(p) {BIKUVOA_FORWARD, p}
#define BACKWARD(p) {BIKUVOA_BACKWARD, p}
#define REACHED {BIKUVOA_REACHED, 0}
#define COMMON {BIKUVOA_COMMON, 0}
#define MARK(k) {BIKUVOA_MARK, k}

/* Words that nothing else has. */
uint16_t *take(size_t words);

Record concept_in(uint16_t *words, Tokens tokens);
Record concept_of(Tokens tokens);
Record declaring(size_t classes, size_t attributes, size_t constants);

#endif
