/* What the tests of all entries share: every refusal that an entry has, alone and with later faults beside it, and null
 * pointers. A refused call alters nothing. */
#ifndef REFUSALS_H
#define REFUSALS_H

void refusals(int entry);
void nulls(int entry);

#endif
