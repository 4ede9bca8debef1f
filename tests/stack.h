/* How much stack the calls take, which must be no more than the header says. */
#ifndef STACK_H
#define STACK_H

/* Tries every entry over the deepest concepts, and prints the most that each has taken. */
void stacks(void);

#endif
