/* Select, for the parts that ask which objects a concept selects. */
#ifndef SELECT_H
#define SELECT_H

#include "words.h"

/* Its refusal. Otherwise what it wrote, into in_it. */
uint16_t selected(const Words *r, Words concept, Words state, size_t room, uint8_t *in_it);

#endif
