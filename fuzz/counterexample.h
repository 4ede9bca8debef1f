/* Counterexample, for the part that asks whether a state is one. */
#ifndef COUNTEREXAMPLE_H
#define COUNTEREXAMPLE_H

#include "words.h"

/* The lowest object in the query and outside the view by select, plus 1, in a state that is legal by legal; else 0. */
uint16_t check_counterexample(const Words *r, Words state, uint64_t *found);

#endif
