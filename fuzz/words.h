/* Words that end where a page begins that can be neither read nor written: records, and lent words. */
#ifndef WORDS_H
#define WORDS_H

#include "bikuvoa.h"

#define UNTOUCHED_SET 0xBEBEBEBE
#define UNTOUCHED_OUT 0xBEBEBEBEBEBEBEBE

/* Those of the input, and others. */
enum { SCHEMA, QUERY, VIEW, STATE, VIEWS, LENT, ORDER, WRITTEN, MISCOUNTED, UNMARKED, PLACES = UNMARKED + VIEWS };

typedef struct {
    uint16_t *at;
    size_t words;
} Words;

Words fenced(int place, size_t words);
Words copied(int place, const uint16_t *words, size_t n);
Words lent(int place, size_t n);
int untouched(Words w, size_t from);

#endif
