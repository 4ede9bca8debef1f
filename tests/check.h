/* A check that is counted, or ends the test. C89 and C++ alike. */
#ifndef CHECK_H
#define CHECK_H

extern int passed;

void check(int ok, const char *what, int row);

#endif
