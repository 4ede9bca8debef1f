/* Many threads at once, each with lent words and out values of its own and a stack of about the documented size, over shared
 * records: every answer and every lent word is as in a single thread. */
#define _POSIX_C_SOURCE 200809L
#include "entry.h"
#include <pthread.h>
#include <stdio.h>
#include <stdlib.h>
#include <string.h>

#define THREADS 8
#define ROUNDS 400
#define UNTOUCHED 0xBEEF
#define OWN_FRAMES 65536

enum { HELD, OPEN, REFUSED, DEEP, MARKED, CASES };

typedef struct {
    bikuvoa_concept query, view;
    bikuvoa_state state;
    bikuvoa_views views;
} Case;

typedef struct {
    int returned;
    uint64_t outs[2];
    uint32_t sets[2];
    uint16_t lent[BIKUVOA_DECIDE_WORDS], order[BIKUVOA_MAX_VIEWS];
} Answer;

static bikuvoa_schema schema;
static Case cases[CASES];
static Answer expected[CASES][ENTRIES];
static pthread_barrier_t barrier;

/* Class 0 needs attribute 0, which goes from class 1 to class 2: each object of 0 is in 1. No two states have as many links.
 * The deepest query names two classes, the one with a mark none, any other concept one. Object i of case i is one of its own
 * values, and that mark. A catalogue has the view, then the query. */
static void make_cases(void)
{
    static uint16_t schema_words[BIKUVOA_SCHEMA_WORDS(2)], words[CASES][2][BIKUVOA_MAX_CONCEPT_WORDS];
    static uint16_t state_words[CASES][BIKUVOA_STATE_WORDS(4 + 2 * CASES)], views_words[CASES][BIKUVOA_MAX_CATALOGUE_WORDS];
    schema = bikuvoa_start_schema(schema_words, BIKUVOA_SCHEMA_WORDS(2), 3, 1, 0);
    bikuvoa_necessary(&schema, 0, 0);
    bikuvoa_relates(&schema, 0, 1, 2);
    for (size_t i = 0; i < CASES; i++) {
        Case *c = &cases[i];
        c->query = bikuvoa_start_concept(words[i][0], BIKUVOA_MAX_CONCEPT_WORDS);
        c->view = bikuvoa_start_concept(words[i][1], BIKUVOA_MAX_CONCEPT_WORDS);
        c->state = bikuvoa_start_state(state_words[i], BIKUVOA_STATE_WORDS(4 + 2 * CASES), 3 + i);
        bikuvoa_member(&c->state, 0, i);
        bikuvoa_member(&c->state, 1, i);
        bikuvoa_member(&c->state, 1, 2);
        for (size_t value = 0; value <= i; value++) {
            bikuvoa_member(&c->state, 2, value);
            if (i != HELD) bikuvoa_pair(&c->state, 0, i, value);
        }
    }
    bikuvoa_class(&cases[HELD].query, 0);
    bikuvoa_class(&cases[HELD].view, 1);
    bikuvoa_class(&cases[OPEN].query, 1);
    bikuvoa_class(&cases[OPEN].view, 0);
    bikuvoa_class(&cases[REFUSED].query, 1);
    bikuvoa_class(&cases[REFUSED].view, 3);
    for (int i = 1; i < BIKUVOA_QUERY_STEPS; i++) bikuvoa_empty(&cases[DEEP].query);
    bikuvoa_class(&cases[DEEP].query, 1);
    bikuvoa_class(&cases[DEEP].query, 2);
    bikuvoa_both(&cases[DEEP].query);
    for (int i = 1; i < BIKUVOA_QUERY_STEPS; i++) {
        bikuvoa_forward(&cases[DEEP].query, 0);
        bikuvoa_empty(&cases[DEEP].query);
        bikuvoa_common(&cases[DEEP].query);
    }
    bikuvoa_class(&cases[DEEP].view, 0);
    bikuvoa_mark(&cases[MARKED].query, 2);
    bikuvoa_empty(&cases[MARKED].query);
    bikuvoa_mark(&cases[MARKED].query, 2);
    bikuvoa_forward(&cases[MARKED].query, 0);
    bikuvoa_reached(&cases[MARKED].query);
    bikuvoa_both(&cases[MARKED].query);
    bikuvoa_class(&cases[MARKED].view, 0);
    bikuvoa_choose(&cases[MARKED].state, 2, MARKED);
    for (size_t i = 0; i < CASES; i++) {
        Case *c = &cases[i];
        c->views = bikuvoa_start_views(views_words[i], BIKUVOA_MAX_CATALOGUE_WORDS);
        bikuvoa_view(&c->views, c->view.words, c->view.length);
        bikuvoa_view(&c->views, c->query.words, c->query.length);
    }
}

static void call(const Case *c, int entry, Answer *a)
{
    const Record r[PLACES] = {
        [SCHEMA] = {schema.length, schema.words}, [QUERY] = {c->query.length, c->query.words},
        [VIEW] = {c->view.length, c->view.words}, [STATE] = {c->state.length, c->state.words},
        [LENT] = {BIKUVOA_DECIDE_WORDS, NULL}, [ATTRIBUTE] = {0, NULL}, [VIEWS] = {c->views.length, c->views.words},
        [ORDER] = {BIKUVOA_MAX_VIEWS, NULL},
    };
    for (int i = 0; i < BIKUVOA_DECIDE_WORDS; i++) a->lent[i] = UNTOUCHED;
    for (int i = 0; i < BIKUVOA_MAX_VIEWS; i++) a->order[i] = UNTOUCHED;
    a->outs[0] = a->outs[1] = a->sets[0] = a->sets[1] = 99;
    a->returned = entry_of(entry)->call(r, (Room){a->lent, a->order, &a->sets[0], &a->sets[1], a->outs});
}

static int same(const Answer *a, const Answer *b)
{
    return a->returned == b->returned && a->outs[0] == b->outs[0] && a->outs[1] == b->outs[1]
           && a->sets[0] == b->sets[0] && a->sets[1] == b->sets[1] && memcmp(a->lent, b->lent, sizeof a->lent) == 0
           && memcmp(a->order, b->order, sizeof a->order) == 0;
}

/* Whether a check left these as the class set, the attribute set and the count. */
static int names(const Answer *a, const uint32_t *named)
{
    return a->sets[0] == named[0] && a->sets[1] == named[1] && a->outs[0] == named[2];
}

/* Whether a catalogue left these as the first two rows, the first two groups and their count. */
static int orders(const Answer *a, const uint16_t *said)
{
    return memcmp(a->lent, said, 2 * sizeof *said) == 0 && memcmp(a->order, said + 2, 2 * sizeof *said) == 0
           && a->outs[0] == said[4];
}

/* Whether the answers of a case are what they should be. Those entries that take no marks refuse the last. */
static int are_known(int i)
{
    static const int NUMBERS[CASES] = {0, 0, BIKUVOA_BAD_TOKEN, 0, 0};
    static const int OF_CONCEPT[CASES] = {0, 0, 0, 0, BIKUVOA_BAD_TOKEN}, OF_STATE[CASES] = {0, 0, 0, 0, BIKUVOA_BAD_FACT};
    static const uint32_t UNNAMED[3] = {99, 99, 99};
    static const uint32_t IN_QUERY[CASES][3] = {{1, 0, 1}, {2, 0, 1}, {2, 0, 1}, {2 + 4, 1, 2}, {0, 1, 0}};
    static const uint32_t IN_VIEW[CASES][3] = {{2, 0, 1}, {1, 0, 1}, {99, 99, 99}, {1, 0, 1}, {1, 0, 1}};
    static const int OF_VIEWS[CASES] = {0, 0, BIKUVOA_BAD_TOKEN, BIKUVOA_BAD_STEPS, BIKUVOA_BAD_TOKEN};
    static const uint16_t NO_ORDER[5] = {UNTOUCHED, UNTOUCHED, UNTOUCHED, UNTOUCHED, 99};
    static const uint16_t IN_ORDER[][5] = {{1, 3, 2, 1, 2}, {3, 2, 1, 2, 2}};
    const Answer *a = expected[i];
    const uint64_t links = OF_CONCEPT[i] ? 99 : i == HELD ? 0 : (uint64_t)i + 1;
    for (int entry = LINKS_BY_FIRST; entry <= LINKS_BY_SECOND; entry++)
        if (a[entry].returned != OF_CONCEPT[i] || a[entry].outs[0] != links) return 0;
    return a[DECIDE].returned == NUMBERS[i] && (a[DECIDE].outs[0] == 0) == (i == HELD)
           && a[HOLDS].returned == NUMBERS[i] && (a[HOLDS].outs[0] == 1) == (i == HELD)
           && a[COUNTEREXAMPLE].returned == NUMBERS[i] && a[SELECT].returned == OF_CONCEPT[i]
           && a[LEGAL].returned == OF_STATE[i]
           && a[CHECK_CONCEPT].returned == OF_CONCEPT[i] && names(&a[CHECK_CONCEPT], OF_CONCEPT[i] ? UNNAMED : IN_QUERY[i])
           && a[CHECK_QUERY].returned == 0 && names(&a[CHECK_QUERY], IN_QUERY[i])
           && a[CHECK_VIEW].returned == NUMBERS[i] && names(&a[CHECK_VIEW], IN_VIEW[i])
           && a[CATALOGUE].returned == OF_VIEWS[i] && orders(&a[CATALOGUE], OF_VIEWS[i] ? NO_ORDER : IN_ORDER[i]);
}

/* Returns its argument if an answer differs. Each thread begins at another place. */
static void *work(void *number)
{
    Answer *answer = malloc(sizeof *answer);
    void *wrong = answer ? NULL : number;
    int from = *(int *)number;
    pthread_barrier_wait(&barrier);
    for (int i = 0; i < ROUNDS * CASES * ENTRIES && !wrong; i++) {
        int at = (from + i) % (CASES * ENTRIES);
        call(&cases[at / ENTRIES], at % ENTRIES, answer);
        if (!same(answer, &expected[at / ENTRIES][at % ENTRIES])) wrong = number;
    }
    free(answer);
    return wrong;
}

int main(void)
{
    pthread_t threads[THREADS];
    int numbers[THREADS];
    pthread_attr_t attributes;
    int wrong = 0;
    make_cases();
    for (int i = 0; i < CASES; i++) {
        for (int entry = 0; entry < ENTRIES; entry++) call(&cases[i], entry, &expected[i][entry]);
        if (!are_known(i)) {
            fprintf(stderr, "failed: the answers of case %d\n", i);
            return 1;
        }
    }
    if (pthread_barrier_init(&barrier, NULL, THREADS) || pthread_attr_init(&attributes)
        || pthread_attr_setstacksize(&attributes, BIKUVOA_STACK_BYTES + OWN_FRAMES)) return 1;
    for (int i = 0; i < THREADS; i++) {
        numbers[i] = i;
        if (pthread_create(&threads[i], &attributes, work, &numbers[i])) return 1;
    }
    for (int i = 0; i < THREADS; i++) {
        void *result = NULL;
        if (pthread_join(threads[i], &result) || result) wrong = 1;
    }
    if (wrong) {
        fprintf(stderr, "failed: an answer differs between threads\n");
        return 1;
    }
    printf("threads: %d with %d calls each, as in a single one\n", THREADS, ROUNDS * CASES * ENTRIES);
    return 0;
}
