/* An entry of include/bikuvoa.h, as it is seen by the tests that go over all of them: what it takes, how it is called, and the
 * test of what it answers. All this is in a file entry_*.c, one for entries that share their test. */
#ifndef ENTRY_H
#define ENTRY_H

#include "records.h"

/* What an entry may be handed: records, the number of its lent words, or an attribute. The lent words of the catalogue are its
 * rows; those for the order have a place of their own. */
enum { SCHEMA, QUERY, VIEW, STATE, LENT, ATTRIBUTE, VIEWS, ORDER, PLACES };

/* Where it may write. */
typedef struct {
    uint16_t *lent, *order;
    uint32_t *classes, *attributes;
    uint64_t *outs;
} Room;

typedef struct {
    const char *name;
    int takes[PLACES];
    size_t lent_words; /* the least, for a state of three objects */
    int takes_marks;   /* in its query */
    int (*call)(const Record *r, Room room);
    void (*test)(void); /* of all entries that have it; NULL if a program of its own tests what this one answers */
} Entry;

/* Each entry: its number in the tests, and its name in its file. Those that share a test stand side by side. */
#define ENTRY_LIST(ENTRY)                         \
    ENTRY(CHECK_CONCEPT, entry_check_concept)     \
    ENTRY(CHECK_QUERY, entry_check_query)         \
    ENTRY(CHECK_VIEW, entry_check_view)           \
    ENTRY(SELECT, entry_select)                   \
    ENTRY(LEGAL, entry_legal)                     \
    ENTRY(COUNTEREXAMPLE, entry_counterexample)   \
    ENTRY(LINKS_BY_FIRST, entry_links_by_first)   \
    ENTRY(LINKS_BY_SECOND, entry_links_by_second) \
    ENTRY(DECIDE, entry_decide)                   \
    ENTRY(HOLDS, entry_holds)                     \
    ENTRY(CATALOGUE, entry_catalogue)

#define ENTRY_NUMBER(number, entry) number,
enum { ENTRY_LIST(ENTRY_NUMBER) ENTRIES };

#define ENTRY_DECLARED(number, entry) extern const Entry entry;
ENTRY_LIST(ENTRY_DECLARED)

const Entry *entry_of(int number);
int takes(int number, int place);
int takes_marks(int number);

#endif
