/* What the tests share of sets in a word: bit n says whether number n is in it. */
#ifndef SETS_H
#define SETS_H

#include <stddef.h>

#define BIT(n) (1u << (n))

static int has(unsigned set, size_t n)
{
    return set >> n & 1;
}

#endif
