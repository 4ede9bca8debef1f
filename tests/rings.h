/* Common objects at each side of the sizes that evaluation has room for, which the tests of several entries ask for. */
#ifndef RINGS_H
#define RINGS_H

#include "records.h"

enum { RINGS = 17, MOST_PAIRS = 26 };
extern const size_t RING_OBJECTS[RINGS];

/* A ring of n objects along attribute 0, in which the last is also a value of its own: it has two links, any other one. */
Record ring(size_t n);

/* What is its own value (the last object), and what has a value of a value as a value (the last two), after so many pairs of
 * tokens that select everything: up to 61 tokens. */
Record own_value(size_t pairs);
Record value_of_value(size_t pairs);

/* So many steps along attribute 0, which every object of a ring can go. */
Record chain(int steps);

#endif
