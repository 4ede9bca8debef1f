/* What each place of a call is refused by, and records that are. */
#ifndef FAULTY_H
#define FAULTY_H

#include "entry.h"

void make_faulty_records(void);

/* The n-th refusal of a place, in the order of the checks; 0 past the last. */
int refusal_of(int place, int n);

/* What has that refusal, and what has none, where an entry takes so many lent words. */
Record faulty_at(int place, int n, size_t lent_words);
Record good_at(int place, size_t lent_words);

#endif
