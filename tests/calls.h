/* What the tests of several entries share: a call of any entry, by the record at each place, or the number of lent words, or
 * the attribute, and what it may write. */
#ifndef CALLS_H
#define CALLS_H

#include "entry.h"

#define UNTOUCHED 0xBEEF
#define UNTOUCHED_SET UINT32_C(0xBEEFBEEF)
#define UNTOUCHED_OUT UINT64_C(0xBEEFBEEFBEEFBEEF)

#define ON(...) ((const Record[PLACES]){__VA_ARGS__})
#define NONE {0, NULL}
#define WORDS(n) {n, NULL}
#define NUMBER(n) {n, NULL}

int call(int entry, const Record *r, uint16_t *words, uint64_t *outs);

extern uint16_t lent[BIKUVOA_DECIDE_WORDS + 1];

void clear_lent(void);
int untouched_from(size_t from);

/* The order that the catalogue writes. */
int order_untouched(void);

/* The sets that the checks write, among words that they must not touch. */
void clear_sets(void);
int sets_are(uint32_t classes, uint32_t attributes);

/* All of these at once. */
void clear(void);
int unaltered(void);

#endif
