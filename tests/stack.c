#define _DEFAULT_SOURCE
#include "stack.h"
#include "calls.h"
#include "check.h"
#include "class_facts.h"
#include "deepest.h"
#include "largest.h"
#include "small.h"
#include <pthread.h>
#include <stdio.h>
#include <stdlib.h>
#include <string.h>
#include <sys/mman.h>

/* A call runs on a painted stack of twice the documented size, and what it took is up to the deepest byte that has lost its
 * paint; then on one of just that size, below which nothing can be touched: a call that takes more kills the test. */

#define PAINT 0xA5
#define NO_ENTRY ENTRIES
#define AREA (2 * BIKUVOA_STACK_BYTES)

typedef struct {
    int entry;
    const Record *r;
    int returned;
    uint64_t outs[2];
} Job;

static void *run(void *argument)
{
    Job *job = argument;
    job->returned = job->entry == NO_ENTRY ? 0 : call(job->entry, job->r, lent, job->outs);
    return NULL;
}

static unsigned char *area(void)
{
    static unsigned char *at;
    if (!at) at = mmap(NULL, AREA, PROT_READ | PROT_WRITE, MAP_PRIVATE | MAP_ANONYMOUS, -1, 0);
    if (at == MAP_FAILED) abort();
    return at;
}

/* The most objects that a decision has written. */
static uint64_t most_objects;

static void run_on(unsigned char *stack, size_t bytes, int entry, const Record *r)
{
    Job job = {entry, r, 99, {0, 0}};
    pthread_attr_t attributes;
    pthread_t thread;
    if (pthread_attr_init(&attributes) || pthread_attr_setstack(&attributes, stack, bytes)
        || pthread_create(&thread, &attributes, run, &job) || pthread_join(thread, NULL)) abort();
    pthread_attr_destroy(&attributes);
    check(job.returned == 0, "a call on a stack of its own", entry);
    if (entry != DECIDE || job.outs[0] == 0) return;
    check(class_facts_are_first(lent), "the class facts of a written state", (int)job.outs[0]);
    if (job.outs[0] > most_objects) most_objects = job.outs[0];
}

static size_t stack_of(int entry, const Record *r)
{
    unsigned char *stack = area();
    size_t painted = 0;
    memset(stack, PAINT, AREA);
    run_on(stack, AREA, entry, r);
    while (painted < AREA && stack[painted] == PAINT) painted++;
    return AREA - painted;
}

static void run_on_documented(int entry, const Record *r)
{
    unsigned char *stack = area();
    size_t below = AREA - BIKUVOA_STACK_BYTES;
    if (mprotect(stack, below, PROT_NONE)) abort();
    run_on(stack + below, BIKUVOA_STACK_BYTES, entry, r);
    if (mprotect(stack, below, PROT_READ | PROT_WRITE)) abort();
}

/* The deepest concepts are tried over the small records, and at the limits. There a person needs every attribute, and each
 * value is in all classes but the last; the largest state obeys that. */
static Record limit_schema(void)
{
    size_t words = BIKUVOA_SCHEMA_WORDS(22 + 2 * 8);
    bikuvoa_schema schema = bikuvoa_start_schema(take(words), words, 24, 8, 4);
    for (size_t a = 0; a < 22; a++) bikuvoa_subclass(&schema, a, a + 1);
    for (size_t p = 0; p < 8; p++) {
        bikuvoa_necessary(&schema, PERSON, p);
        bikuvoa_typing(&schema, PERSON, p, 0);
    }
    return (Record){schema.length, schema.words};
}

/* How many marks the query uses: they are numbered without gaps. */
static size_t marks_of(Record query)
{
    size_t n = query.at[BIKUVOA_AT_TOKENS], marks = 0;
    for (size_t i = BIKUVOA_CONCEPT_SIZES; i < BIKUVOA_CONCEPT_SIZES + n; i++)
        if (query.at[i] == BIKUVOA_MARK && query.at[i + n] >= marks) marks = query.at[i + n] + 1u;
    return marks;
}

static Record state_with(int limits, size_t marks)
{
    if (!limits) return marked_s(marks);
    bikuvoa_state largest = largest_state(marks);
    return (Record){largest.length, largest.words};
}

/* What a call takes beside the thread's own start, which may be deeper than a small call. */
static void measure(const Record *r, int row, size_t *most)
{
    size_t own = stack_of(NO_ENTRY, r);
    for (int entry = 0; entry < ENTRIES; entry++) {
        if (marks_of(r[QUERY]) > 0 && !takes_marks(entry)) continue;
        size_t all = stack_of(entry, r), bytes = all > own ? all - own : 0;
        check(bytes <= BIKUVOA_STACK_BYTES, "the stack", 100 * row + entry);
        run_on_documented(entry, r);
        if (bytes > most[entry]) most[entry] = bytes;
    }
}

/* Every shape as the query, and as the view of a query with many objects. */
static void measure_shapes(int limits, int marked, size_t *most)
{
    static uint16_t query_words[BIKUVOA_MAX_CONCEPT_WORDS], view_words[BIKUVOA_MAX_CONCEPT_WORDS];
    const Record lent_words = WORDS(BIKUVOA_DECIDE_WORDS), order_words = WORDS(BIKUVOA_MAX_VIEWS);
    Record schema = limits ? limit_schema() : schema_x;
    size_t attributes = schema.at[BIKUVOA_AT_ATTRIBUTES], last_class = schema.at[BIKUVOA_AT_CLASSES] - 1u;
    Record views = deepest_views(PERSON, last_class, attributes);
    for (int shape = 0; shape < 2 * SHAPES; shape++) {
        int as_view = shape >= SHAPES;
        Record query = deepest(query_words, PERSON, attributes, BIKUVOA_QUERY_STEPS, as_view ? STAR : shape, marked);
        Record view = as_view ? deepest(view_words, last_class, attributes, BIKUVOA_VIEW_STEPS, shape - SHAPES, 0) : person;
        Record state = state_with(limits, marks_of(query));
        measure(ON(schema, query, view, state, lent_words, NUMBER(WEARS), views, order_words),
                1000 * marked + 100 * limits + shape, most);
    }
}

void stacks(void)
{
    size_t most[ENTRIES] = {0};
    for (int marked = 0; marked < 2; marked++) {
        most_objects = 0;
        for (int limits = 0; limits < 2; limits++) measure_shapes(limits, marked, most);
        check(most_objects > 300, "a verdict that needs many objects", marked);
    }
    printf("stack, measured in KB: ");
    for (int entry = 0; entry < ENTRIES; entry++)
        printf("%s %zu%s", entry_of(entry)->name, most[entry] / 1024, entry + 1 < ENTRIES ? ", " : "; ");
    printf("allowed %d\n", BIKUVOA_STACK_BYTES / 1024);
}
