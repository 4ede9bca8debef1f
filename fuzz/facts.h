/* What the parts share of a state's facts. */
#ifndef FACTS_H
#define FACTS_H

#include "part.h"

extern Count false_count;

/* The object of the one fact of that kind, or an object that no state has if there is not exactly one. */
size_t object_of(Words state, size_t kind);

int ascend(Words state);

/* The state with another count of class facts. One that is accepted by itself is then refused by every entry, whatever is at
 * fault after it. */
Words miscount(Words state, size_t more);

#endif
