/* A libFuzzer target over the entries. An input is read as records of arbitrary words, or as instructions for records that are
 * mostly accepted, which may then be damaged. Every record and all lent words end at a page that cannot be touched. What the
 * entries promise of each other is checked: each has a file, which says how it is called and what must be true then.
 *
 *   cd fuzz && clang -g -O1 -fsanitize=fuzzer -I../include *.c ../target/staticlib/libbikuvoa_c.a -o fuzz_entries
 *
 * With -DSTANDALONE and any compiler it has a main of its own, which makes the number of inputs that it is given. */
#include "build.h"
#include "checks.h"
#include "legal.h"
#include "part.h"
#include <stdio.h>
#include <stdlib.h>

/* Each part, by its name in its file; in this order their counts are printed. */
#define PART_LIST(PART)       \
    PART(decide_part)         \
    PART(links_part)          \
    PART(checks_part)         \
    PART(catalogue_part)      \
    PART(constants_part)      \
    PART(marks_part)          \
    PART(facts_part)          \
    PART(select_part)         \
    PART(legal_part)          \
    PART(counterexample_part)

#define DECLARED(part) extern const Part part;
PART_LIST(DECLARED)

#define ADDRESS(part) &part,
static const Part *const PARTS[] = {PART_LIST(ADDRESS)};
enum { N_PARTS = sizeof PARTS / sizeof *PARTS };

int LLVMFuzzerTestOneInput(const uint8_t *data, size_t size);

/* Mostly a number that the schema may declare. */
static uint16_t some_attribute(Input *in)
{
    size_t low = byte(in);
    return (uint16_t)(low % 8 ? low / 8 % 4 : byte(in) * 256 + low);
}

static void read_input(Input *in, Asked *a)
{
    const size_t way = byte(in);
    a->rooms = byte(in);
    a->attribute = some_attribute(in);
    if (way % 8 < 2) {
        arbitrary_records(in, a->r);
        return;
    }
    built_records(in, a->r);
    for (size_t n = way % 8 < 4 ? 1 + way / 8 % 3 : 0; n > 0; n--) damage(in, a->r);
}

static void check_alone(Asked *a)
{
    const Returned query = check_concept(a->r, a->r[QUERY]), view = check_concept(a->r, a->r[VIEW]);
    uint64_t broken;
    a->schema = bikuvoa_schema_refusal(a->r[SCHEMA].at, a->r[SCHEMA].words);
    a->concept = query.concept;
    a->query = query.query;
    a->view = view.view;
    a->state = broken_axiom(a->r, a->r[STATE], &broken);
}

int LLVMFuzzerTestOneInput(const uint8_t *data, size_t size)
{
    Input in = {data, size};
    Asked asked;
    read_input(&in, &asked);
    check_alone(&asked);
    for (int i = 0; i < N_PARTS; i++)
        if (PARTS[i]->check) PARTS[i]->check(&asked);
    return 0;
}

#ifdef STANDALONE
/* Returns how many of the part's counts are 0. */
static int print_counts(const Part *part, const char *before)
{
    int missing = 0;
    for (int i = 0; i < MOST_COUNTS && part->counts[i]; i++) {
        printf("%s%s %lu", i ? ", " : before, part->counts[i]->what, part->counts[i]->times);
        missing += part->counts[i]->times == 0;
    }
    return missing;
}

int main(int argc, char **argv)
{
    uint64_t random = 1;
    long inputs = argc > 1 ? atol(argv[1]) : 0;
    int missing = 0;
    for (long i = 0; i < inputs; i++) {
        uint8_t data[300];
        for (size_t at = 0; at < sizeof data; at++) {
            random = random * 6364136223846793005u + 1442695040888963407u;
            data[at] = (uint8_t)(random >> 56);
        }
        LLVMFuzzerTestOneInput(data, sizeof data);
    }
    printf("%ld inputs", inputs);
    for (int i = 0; i < N_PARTS; i++) missing += print_counts(PARTS[i], i ? "; " : ": ");
    printf("\n");
    return missing ? 1 : 0;
}
#endif
