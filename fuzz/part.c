#include "part.h"

uint16_t first(uint16_t one, uint16_t two)
{
    return one ? one : two;
}

uint16_t few_words(size_t room, size_t least)
{
    return room < least ? BIKUVOA_FEW_LENT_WORDS : 0;
}

int is_among(uint16_t refusal, uint16_t lowest, uint16_t highest)
{
    return refusal == 0 || (lowest <= refusal && refusal <= highest);
}
