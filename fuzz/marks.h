/* What the parts share of marks. */
#ifndef MARKS_H
#define MARKS_H

#include "part.h"

extern Count open_with_marks, mark_without_object;

/* The marks of a concept that is accepted, as a set. */
unsigned used_in(Words concept);

/* Whether each of these marks is one object. */
int are_chosen(Words state, unsigned marks);

/* The same question about the state without marks: each is a class of its own, which has just its object. Returns 0 if there is
 * no room for these classes; then each is a class of the schema, and only what is refused is the same. */
int unmarked(const Words *r, Words state, Words *without);

/* With loose constants after the declared ones in place of the marks, if there is room for them, the verdict is the same. With
 * everything in their places the query is no narrower, and the same if each mark stands once. */
void check_marks(const Words *r, int held);

#endif
