/* The records of an input, at the places up to that of the views. */
#ifndef BUILD_H
#define BUILD_H

#include "input.h"
#include "words.h"

/* Of arbitrary words: for each record a length, then its words. */
void arbitrary_records(Input *in, Words *r);

/* Mostly accepted. */
void built_records(Input *in, Words *r);

void damage(Input *in, Words *r);

#endif
