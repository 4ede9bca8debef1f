#include "input.h"

size_t byte(Input *in)
{
    if (!in->left) return 0;
    in->left--;
    return *in->at++;
}

size_t below(Input *in, size_t limit)
{
    return limit ? byte(in) % limit : 0;
}
