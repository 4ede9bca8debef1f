/* The checks of a concept, of a query and of a view, for the parts that ask for their refusals. */
#ifndef CHECKS_H
#define CHECKS_H

#include "words.h"

typedef struct {
    uint16_t concept, query, view;
} Returned;

/* What the checks return of a concept. They differ only where it has a mark, which is a fault of a token but in a query, or too
 * many steps for a view. */
Returned check_concept(const Words *r, Words concept);

#endif
