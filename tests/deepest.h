/* The deepest concepts: of one class, with steps along all attributes in turn. A marked one has a mark in place of every fourth
 * class, one mark after the other. */
#ifndef DEEPEST_H
#define DEEPEST_H

#include "records.h"

/* A query of the last shape, paths of four steps from one object, has the most objects to ask the view for. */
enum { NESTED = 10, JOINED = NESTED, FORWARD_PATH, BACKWARD_PATH, STAR, SHAPES };

Record deepest(uint16_t *words, size_t class, size_t attributes, int steps, int shape, int marked);

/* As many views as there may be, of every shape: the first ones of one class, the others of another. */
Record deepest_views(size_t first_class, size_t last_class, size_t attributes);

#endif
