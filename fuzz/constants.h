/* What the parts share of constants. */
#ifndef CONSTANTS_H
#define CONSTANTS_H

#include "part.h"

extern Count undeclared_loose, shared_object;

/* Whether two of these constants name one object. */
int share(Words state, unsigned constants);

/* Whether each constant names one object, and no two that are not loose the same. */
int are_names(Words schema, Words state);

#endif
