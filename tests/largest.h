/* The largest states, which the tests of limits share. */
#ifndef LARGEST_H
#define LARGEST_H

#include "records.h"

/* 480 objects in every class, each with itself as its value of every attribute, four constants, and so many marks, all of them
 * the last object; object 0 has as many more values of attribute 0 as make 15,384 facts. There is room for one more. */
bikuvoa_state largest_state(size_t marks);

/* Declares all that can be, and has an axiom that it obeys. */
Record largest_schema(void);

#endif
