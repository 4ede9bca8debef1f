/* A store that reads queries from stored lists. It keeps views, narrow ones first, each with the list of its objects. A query
 * is read from the first list that is sure to have all its objects, and filtered unless the list is sure to have no others.
 * At the end it counts who attends what, shows what each view names, and lists the classes for a phone. With the library built
 * (`tools/build bikuvoa_c`):
 *
 *   cc -Iinclude example/store.c target/staticlib/libbikuvoa_c.a -o store && ./store */
#include "bikuvoa.h"
#include <stdio.h>
#include <string.h>

enum { PERSON, ROWER, STRAP, SESSION, BEAT, CLASSES };
enum { WEARS, RECORDS, DURING, ATTENDS, ATTRIBUTES };
enum { NUMBER_17, NUMBER_40, CONSTANTS }; /* numbers of straps */
static const char *const CLASS_NAMES[] = {"Person", "Rower", "Strap", "Session", "Beat"};
static const char *const ATTRIBUTE_NAMES[] = {"wears", "records", "during", "attends"};
enum { PERSONS, WEARERS, ROWERS, VIEWS };
enum { AXIOMS = 10, TOKENS = 12, OBJECTS = 8, FACTS = 20 };

typedef struct {
    const char *name;
    bikuvoa_concept is;
    uint16_t words[BIKUVOA_CONCEPT_WORDS(TOKENS)];
    uint16_t list[OBJECTS]; /* 1 for each object in the view */
} View;

typedef struct {
    const char *name;
    bikuvoa_concept is;
    uint16_t words[BIKUVOA_CONCEPT_WORDS(TOKENS)];
    int (*has)(size_t object); /* the store's own look at one object */
} Query;

static uint16_t schema_words[BIKUVOA_SCHEMA_WORDS(AXIOMS)], state_words[BIKUVOA_STATE_WORDS(FACTS)];
static bikuvoa_schema schema;
static bikuvoa_state state;
static View views[VIEWS];
static const View *narrow_first[VIEWS];

/* A change is kept only if every axiom holds after it, since HELD speaks of legal states. Then the lists are made anew. */
static void change(const char *what, bikuvoa_state changed)
{
    uint64_t broken = 0, selected;
    uint16_t refusal = bikuvoa_legal(schema.words, schema.length, changed.words, changed.length, &broken);
    if (refusal) {
        printf("%s: refused, %s\n", what, bikuvoa_refusal_text(refusal));
        return;
    }
    if (broken) {
        printf("%s: not kept, it breaks axiom %d\n", what, (int)broken - 1);
        return;
    }
    memcpy(state_words, changed.words, changed.length * sizeof *state_words);
    state.length = changed.length;
    for (View *v = views; v < views + VIEWS; v++)
        bikuvoa_select(schema.words, schema.length, v->is.words, v->is.length, state.words, state.length, v->list, OBJECTS,
                       &selected);
    printf("%s: kept\n", what);
}

/* The verdict depends on the schema alone and not on the data: a larger store finds it once for each query. */
static int holds(bikuvoa_concept query, bikuvoa_concept view)
{
    uint64_t held = 0; /* and so it stays if the call is refused */
    bikuvoa_holds(schema.words, schema.length, query.words, query.length, view.words, view.length, &held);
    return held == 1;
}

static void answer(const Query *query)
{
    const View *from = NULL;
    int exact, looks = 0;
    for (int i = 0; i < VIEWS && !from; i++)
        if (holds(query->is, narrow_first[i]->is)) from = narrow_first[i];
    exact = from && holds(from->is, query->is);
    printf("%s:", query->name);
    for (size_t object = 0; object < OBJECTS; object++) {
        if (from && !from->list[object]) continue;
        looks += !exact;
        if (exact || query->has(object)) printf(" %zu", object);
    }
    printf(" (from %s, looking at %d)\n", from ? from->name : "all objects", looks);
}

/* What the store holds: the rowing club, as in example/club.c without the strokes of sessions, and numbers of its straps. */
static void make_schema(void)
{
    schema = bikuvoa_start_schema(schema_words, BIKUVOA_SCHEMA_WORDS(AXIOMS), CLASSES, ATTRIBUTES, CONSTANTS);
    bikuvoa_loose(&schema, NUMBER_40); /* a strap may have it beside another number */
    bikuvoa_subclass(&schema, ROWER, PERSON);
    bikuvoa_necessary(&schema, ROWER, WEARS);
    bikuvoa_single(&schema, PERSON, WEARS);
    bikuvoa_relates(&schema, WEARS, PERSON, STRAP);
    bikuvoa_necessary(&schema, STRAP, RECORDS);
    bikuvoa_relates(&schema, RECORDS, STRAP, BEAT);
    bikuvoa_necessary(&schema, BEAT, DURING);
    bikuvoa_single(&schema, BEAT, DURING);
    bikuvoa_relates(&schema, DURING, BEAT, SESSION);
    bikuvoa_relates(&schema, ATTENDS, PERSON, SESSION);
    state = bikuvoa_start_state(state_words, BIKUVOA_STATE_WORDS(FACTS), OBJECTS);
}

static void step(bikuvoa_concept *c, size_t attribute, size_t landing)
{
    bikuvoa_class(c, landing);
    bikuvoa_forward(c, attribute);
}

static bikuvoa_concept *start_view(View *view, const char *name)
{
    view->name = name;
    view->is = bikuvoa_start_concept(view->words, BIKUVOA_CONCEPT_WORDS(TOKENS));
    return &view->is;
}

static void make_views(void)
{
    bikuvoa_concept *c = start_view(&views[PERSONS], "the persons");
    bikuvoa_class(c, PERSON);

    c = start_view(&views[WEARERS], "the wearers");
    bikuvoa_empty(c);
    step(c, WEARS, STRAP);
    bikuvoa_reached(c);

    c = start_view(&views[ROWERS], "the rowers");
    bikuvoa_class(c, ROWER);
}

/* In the order of the catalogue. If it were refused, there would be no groups, and the views would stay as they were made. */
static void put_narrow_first(void)
{
    uint16_t words[BIKUVOA_CATALOGUE_SIZES(VIEWS) + VIEWS * BIKUVOA_CONCEPT_WORDS(TOKENS)];
    uint16_t rows[BIKUVOA_MAX_VIEWS], order[BIKUVOA_MAX_VIEWS];
    bikuvoa_views all = bikuvoa_start_views(words, sizeof words / sizeof *words);
    uint64_t groups = 0;
    size_t placed = 0;
    for (size_t i = 0; i < VIEWS; i++) {
        narrow_first[i] = &views[i];
        bikuvoa_view(&all, views[i].is.words, views[i].is.length);
    }
    bikuvoa_catalogue(schema.words, schema.length, all.words, all.length, rows, BIKUVOA_MAX_VIEWS, order, BIKUVOA_MAX_VIEWS,
                      &groups);
    for (size_t k = 0; k < groups; k++)
        for (size_t i = 0; i < VIEWS; i++)
            if (order[k] >> i & 1) narrow_first[placed++] = &views[i];
    printf("narrow views first:");
    for (size_t i = 0; i < VIEWS; i++) printf("%s %s", i ? "," : "", narrow_first[i]->name);
    printf("\n");
}

/* Rower 0 and person 1 wear straps 3 and 4, which have recorded beats 5 and 6 of session 7; 0 and person 2 attend it. Strap 3
 * is registered under both numbers. Then person 2 is to be a rower, but wears nothing. */
static void make_changes(void)
{
    uint16_t words[BIKUVOA_STATE_WORDS(FACTS)];
    bikuvoa_state next = bikuvoa_start_state(words, BIKUVOA_STATE_WORDS(FACTS), OBJECTS);
    for (size_t i = 0; i < 3; i++) bikuvoa_member(&next, PERSON, i);
    bikuvoa_member(&next, ROWER, 0);
    for (size_t i = 0; i < 2; i++) {
        bikuvoa_member(&next, STRAP, 3 + i);
        bikuvoa_member(&next, BEAT, 5 + i);
        bikuvoa_pair(&next, WEARS, i, 3 + i);
        bikuvoa_pair(&next, RECORDS, 3 + i, 5 + i);
        bikuvoa_pair(&next, DURING, 5 + i, 7);
    }
    bikuvoa_member(&next, SESSION, 7);
    bikuvoa_pair(&next, ATTENDS, 0, 7);
    bikuvoa_pair(&next, ATTENDS, 2, 7);
    bikuvoa_name(&next, NUMBER_17, 3);
    bikuvoa_name(&next, NUMBER_40, 3);
    change("a season", next);
    bikuvoa_member(&next, ROWER, 2);
    change("a rower without a strap", next);
}

static int is(size_t kind, size_t object)
{
    for (size_t i = 0; i < bikuvoa_facts(state.words); i++)
        if (bikuvoa_fact_kind(state.words, i) == kind && bikuvoa_fact_object(state.words, i) == object) return 1;
    return 0;
}

static int is_strap(size_t object)
{
    return is(STRAP, object);
}

static int has_both_numbers(size_t object)
{
    return is(BIKUVOA_CONSTANT_KINDS + NUMBER_17, object) && is(BIKUVOA_CONSTANT_KINDS + NUMBER_40, object);
}

static int attends(size_t object)
{
    return is(BIKUVOA_ATTRIBUTE_KINDS + ATTENDS, object);
}

static int attends_as_rower(size_t object)
{
    return is(ROWER, object) && attends(object);
}

/* In a legal state every worn strap has recorded a beat of a session. */
static int is_recorded(size_t object)
{
    return is(BIKUVOA_ATTRIBUTE_KINDS + WEARS, object);
}

static bikuvoa_concept *start_query(Query *query, const char *name, int (*has)(size_t))
{
    query->name = name;
    query->has = has;
    query->is = bikuvoa_start_concept(query->words, BIKUVOA_CONCEPT_WORDS(TOKENS));
    return &query->is;
}

/* The season sheet goes person by person, the sheets of the sessions one by one: they count the same links. */
static void count_attendances(const View *persons)
{
    uint64_t by_person = 0, by_session = 0;
    bikuvoa_links_by_first(schema.words, schema.length, persons->is.words, persons->is.length, state.words, state.length,
                           ATTENDS, &by_person);
    bikuvoa_links_by_second(schema.words, schema.length, persons->is.words, persons->is.length, state.words, state.length,
                            ATTENDS, &by_session);
    printf("attendances: %d person by person, %d session by session\n", (int)by_person, (int)by_session);
}

static void print_names(uint32_t set, const char *const *names, size_t count)
{
    for (size_t i = 0; i < count; i++)
        if (set >> i & 1) printf(" %s", names[i]);
}

/* The screen of a view lists the classes and attributes in it. */
static void show(const View *view)
{
    uint32_t classes = 0, attributes = 0;
    uint64_t named = 0;
    bikuvoa_check_view(schema.words, schema.length, view->is.words, view->is.length, &classes, &attributes, &named);
    printf("screen of %s:", view->name);
    print_names(classes, CLASS_NAMES, CLASSES);
    print_names(attributes, ATTRIBUTE_NAMES, ATTRIBUTES);
    printf(" (%d of %d classes)\n", (int)named, CLASSES);
}

/* The phone lists the members of each class. The record says how many of its facts these are, and they are the first ones: the
 * others are not looked at. */
static void list_classes(void)
{
    size_t listed = CLASSES;
    printf("on the phone:");
    for (size_t i = 0; i < bikuvoa_class_facts(state.words); i++) {
        size_t class = bikuvoa_fact_kind(state.words, i);
        if (class != listed) printf(" %s", CLASS_NAMES[class]);
        printf(" %zu", bikuvoa_fact_object(state.words, i));
        listed = class;
    }
    printf(" (%zu of %zu facts)\n", bikuvoa_class_facts(state.words), bikuvoa_facts(state.words));
}

int main(void)
{
    Query query;
    bikuvoa_concept *c;
    make_schema();
    make_views();
    put_narrow_first();
    make_changes();

    c = start_query(&query, "rowers who attend a session", attends_as_rower);
    bikuvoa_class(c, ROWER);
    bikuvoa_empty(c);
    step(c, ATTENDS, SESSION);
    bikuvoa_reached(c);
    bikuvoa_both(c);
    answer(&query);

    c = start_query(&query, "who attends a session", attends);
    bikuvoa_empty(c);
    step(c, ATTENDS, SESSION);
    bikuvoa_reached(c);
    answer(&query);

    /* Under this schema just those who wear a strap: their list is read as it is. */
    c = start_query(&query, "whose strap has recorded a beat of a session", is_recorded);
    bikuvoa_empty(c);
    step(c, WEARS, STRAP);
    step(c, RECORDS, BEAT);
    step(c, DURING, SESSION);
    bikuvoa_reached(c);
    answer(&query);

    c = start_query(&query, "straps", is_strap);
    bikuvoa_class(c, STRAP);
    answer(&query);

    /* Were neither number loose, nothing could have both, and any list would do. */
    c = start_query(&query, "the strap with numbers 17 and 40", has_both_numbers);
    bikuvoa_constant(c, NUMBER_17);
    bikuvoa_constant(c, NUMBER_40);
    bikuvoa_both(c);
    answer(&query);

    count_attendances(&views[PERSONS]);
    for (size_t i = 0; i < VIEWS; i++) show(narrow_first[i]);
    list_classes();
    return 0;
}
