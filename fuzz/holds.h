/* Holds, for the parts that ask for verdicts. */
#ifndef HOLDS_H
#define HOLDS_H

#include "words.h"

/* What decide has said, but for lent words, of which holds needs none. */
void check_holds(const Words *r, uint16_t decided, uint64_t objects);

/* The verdict about records that are accepted. */
uint64_t held_by(Words schema, Words query, Words view);

#endif
