/* Small records that the tests of several entries share: schema X and state S of document 01, what it selects in S, and the
 * smallest records. */
#ifndef SMALL_H
#define SMALL_H

#include "records.h"

enum { STRAP, PERSON };
enum { WEARS };

/* Schema X has Strap, Person, wears and one constant; with or without "Strap needs wears". In state S two persons wear one
 * strap, and the constant names the first of them. */
extern Record schema_x, schema_x_needs, state_s;

extern Record no_axioms, one_attribute, no_objects, everything, person;

void make_small_records(void);

/* State S with so many marks. */
Record marked_s(size_t marks);

/* The selections a to i. */
enum { SELECTIONS = 9 };
typedef struct {
    Tokens tokens;
    uint16_t flags[3];
} Selection;
extern const Selection SELECTED[SELECTIONS];

#endif
