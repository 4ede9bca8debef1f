/* The parts of the target: a file for each entry, and for what several of them promise of one thing. */
#ifndef PART_H
#define PART_H

#include "words.h"

/* What an input asks: its records, an attribute, a number that says how many words are lent, and what each record is refused by
 * alone. The query is also looked at as a concept of entries that take no marks. */
typedef struct {
    Words r[VIEWS + 1];
    uint16_t attribute;
    size_t rooms;
    uint16_t schema, concept, query, view, state;
} Asked;

/* How often something has come up in all inputs: each must. */
typedef struct {
    const char *what;
    unsigned long times;
} Count;

enum { MOST_COUNTS = 3 };

typedef struct {
    void (*check)(const Asked *asked); /* NULL where only other parts ask */
    Count *counts[MOST_COUNTS];
} Part;

/* The refusals of each record by itself, taken in the order of the checks, are those of the calls. */
uint16_t first(uint16_t one, uint16_t two);
uint16_t few_words(size_t room, size_t least);

/* Whether it is 0 or among these numbers. */
int is_among(uint16_t refusal, uint16_t lowest, uint16_t highest);

#endif
