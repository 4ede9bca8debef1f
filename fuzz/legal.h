/* Legal, for the parts that ask for the refusal of a state and for the axiom that it breaks. */
#ifndef LEGAL_H
#define LEGAL_H

#include "words.h"

/* If nothing is refused before: refused for its count exactly if that is false, and then for its constants exactly if they are
 * no names. */
uint16_t broken_axiom(const Words *r, Words state, uint64_t *broken);

#endif
