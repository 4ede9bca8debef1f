/* What must be true, or the target ends. */
#ifndef CHECK_H
#define CHECK_H

#define CHECK(ok) ((ok) ? (void)0 : fail(#ok, __FILE__, __LINE__))

void fail(const char *what, const char *file, int line);

#endif
