#include "calls.h"

enum { CLASS_SET = 1, ATTRIBUTE_SET = 3, SETS = 5 };
static uint32_t sets[SETS];
static uint16_t order[BIKUVOA_MAX_VIEWS];

int call(int entry, const Record *r, uint16_t *words, uint64_t *outs)
{
    const Room room = {words, r[ORDER].words ? order : NULL, &sets[CLASS_SET], &sets[ATTRIBUTE_SET], outs};
    return entry_of(entry)->call(r, room);
}

uint16_t lent[BIKUVOA_DECIDE_WORDS + 1];

void clear_lent(void)
{
    for (int i = 0; i <= BIKUVOA_DECIDE_WORDS; i++) lent[i] = UNTOUCHED;
}

int untouched_from(size_t from)
{
    while (from <= BIKUVOA_DECIDE_WORDS && lent[from] == UNTOUCHED) from++;
    return from == BIKUVOA_DECIDE_WORDS + 1;
}

static void clear_order(void)
{
    for (int i = 0; i < BIKUVOA_MAX_VIEWS; i++) order[i] = UNTOUCHED;
}

int order_untouched(void)
{
    int i = 0;
    while (i < BIKUVOA_MAX_VIEWS && order[i] == UNTOUCHED) i++;
    return i == BIKUVOA_MAX_VIEWS;
}

void clear_sets(void)
{
    for (int i = 0; i < SETS; i++) sets[i] = UNTOUCHED_SET;
}

int sets_are(uint32_t classes, uint32_t attributes)
{
    for (int i = 0; i < SETS; i += 2)
        if (sets[i] != UNTOUCHED_SET) return 0;
    return sets[CLASS_SET] == classes && sets[ATTRIBUTE_SET] == attributes;
}

void clear(void)
{
    clear_lent();
    clear_order();
    clear_sets();
}

int unaltered(void)
{
    return untouched_from(0) && order_untouched() && sets_are(UNTOUCHED_SET, UNTOUCHED_SET);
}
