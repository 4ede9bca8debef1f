#include "entry.h"

#define ADDRESS(number, entry) &entry,
static const Entry *const LISTED[ENTRIES] = {ENTRY_LIST(ADDRESS)};

const Entry *entry_of(int number)
{
    return LISTED[number];
}

int takes(int number, int place)
{
    return entry_of(number)->takes[place];
}

int takes_marks(int number)
{
    return entry_of(number)->takes_marks;
}
