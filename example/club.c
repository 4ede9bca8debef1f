/* The rowing club: may the query "rowers who attend a session" be read from the stored list of the view "persons whose strap
 * has recorded a beat of a session"? And the other way round? And where may those beats be looked for whose strap's wearer is
 * also the session's stroke? With the library built (`tools/build bikuvoa_c`):
 *
 *   cc -Iinclude example/club.c target/staticlib/libbikuvoa_c.a -o club && ./club */
#include "bikuvoa.h"
#include <stdio.h>

/* Classes and attributes are numbers; their names stay here. */
enum { PERSON, ROWER, STRAP, SESSION, BEAT, CLASSES };
enum { WEARS, RECORDS, DURING, ATTENDS, STROKED_BY, ATTRIBUTES };
static const char *const CLASS_NAMES[] = {"Person", "Rower", "Strap", "Session", "Beat"};
static const char *const ATTRIBUTE_NAMES[] = {"wears", "records", "during", "attends", "stroked by"};

static bikuvoa_schema club(uint16_t *words, size_t room)
{
    bikuvoa_schema s = bikuvoa_start_schema(words, room, CLASSES, ATTRIBUTES, 0);
    bikuvoa_single(&s, PERSON, WEARS);             /* a person wears at most one thing */
    bikuvoa_subclass(&s, ROWER, PERSON);           /* a rower is a person */
    bikuvoa_necessary(&s, ROWER, WEARS);           /* a rower wears something */
    bikuvoa_relates(&s, WEARS, PERSON, STRAP);     /* persons wear, straps are worn */
    bikuvoa_necessary(&s, STRAP, RECORDS);         /* a strap has recorded something */
    bikuvoa_relates(&s, RECORDS, STRAP, BEAT);
    bikuvoa_necessary(&s, BEAT, DURING);           /* a beat was during one session */
    bikuvoa_single(&s, BEAT, DURING);
    bikuvoa_relates(&s, DURING, BEAT, SESSION);
    bikuvoa_relates(&s, ATTENDS, PERSON, SESSION);
    bikuvoa_relates(&s, STROKED_BY, SESSION, ROWER); /* the stroke of a session is a rower */
    return s;
}

/* Concepts are in postfix order: a path begins empty, and each step follows the concept on which it lands. */
static bikuvoa_concept rowers_who_attend(uint16_t *words, size_t room)
{
    bikuvoa_concept c = bikuvoa_start_concept(words, room);
    bikuvoa_class(&c, ROWER);
    bikuvoa_empty(&c);
    bikuvoa_class(&c, SESSION);
    bikuvoa_forward(&c, ATTENDS);
    bikuvoa_reached(&c);
    bikuvoa_both(&c);
    return c;
}

static bikuvoa_concept recorded_persons(uint16_t *words, size_t room)
{
    bikuvoa_concept c = bikuvoa_start_concept(words, room);
    bikuvoa_class(&c, PERSON);
    bikuvoa_empty(&c);
    bikuvoa_class(&c, STRAP);
    bikuvoa_forward(&c, WEARS);
    bikuvoa_everything(&c);
    bikuvoa_forward(&c, RECORDS);
    bikuvoa_class(&c, SESSION);
    bikuvoa_forward(&c, DURING);
    bikuvoa_reached(&c);
    bikuvoa_both(&c);
    return c;
}

/* One mark at both ends says that the strap's wearer and the session's stroke are the same. */
static bikuvoa_concept beats_of_the_stroke(uint16_t *words, size_t room)
{
    bikuvoa_concept c = bikuvoa_start_concept(words, room);
    bikuvoa_empty(&c);
    bikuvoa_class(&c, STRAP);
    bikuvoa_backward(&c, RECORDS);
    bikuvoa_mark(&c, 0);
    bikuvoa_backward(&c, WEARS);
    bikuvoa_reached(&c);
    bikuvoa_empty(&c);
    bikuvoa_class(&c, SESSION);
    bikuvoa_forward(&c, DURING);
    bikuvoa_mark(&c, 0);
    bikuvoa_forward(&c, STROKED_BY);
    bikuvoa_reached(&c);
    bikuvoa_both(&c);
    return c;
}

/* Two steps from a beat: back to the strap and its wearer, or to the session and back to who attends it. */
static bikuvoa_concept beats_of_rowers(uint16_t *words, size_t room)
{
    bikuvoa_concept c = bikuvoa_start_concept(words, room);
    bikuvoa_empty(&c);
    bikuvoa_class(&c, STRAP);
    bikuvoa_backward(&c, RECORDS);
    bikuvoa_class(&c, ROWER);
    bikuvoa_backward(&c, WEARS);
    bikuvoa_reached(&c);
    return c;
}

static bikuvoa_concept beats_of_attended_sessions(uint16_t *words, size_t room)
{
    bikuvoa_concept c = bikuvoa_start_concept(words, room);
    bikuvoa_empty(&c);
    bikuvoa_class(&c, SESSION);
    bikuvoa_forward(&c, DURING);
    bikuvoa_class(&c, PERSON);
    bikuvoa_backward(&c, ATTENDS);
    bikuvoa_reached(&c);
    return c;
}

static void print_facts(const uint16_t *state)
{
    for (size_t i = 0; i < bikuvoa_facts(state); i++) {
        size_t kind = bikuvoa_fact_kind(state, i), object = bikuvoa_fact_object(state, i);
        if (kind < BIKUVOA_ATTRIBUTE_KINDS)
            printf("  %zu is a %s\n", object, CLASS_NAMES[kind]);
        else if (kind < BIKUVOA_CONSTANT_KINDS)
            printf("  %zu %s %zu\n", object, ATTRIBUTE_NAMES[kind - BIKUVOA_ATTRIBUTE_KINDS], bikuvoa_fact_second(state, i));
        else if (kind < BIKUVOA_MARK_KINDS)
            printf("  %zu is constant %zu\n", object, kind - BIKUVOA_CONSTANT_KINDS);
        else
            printf("  %zu is mark %zu\n", object, kind - BIKUVOA_MARK_KINDS);
    }
}

/* Returns 1 if refused. */
static int decide(bikuvoa_schema schema, bikuvoa_concept query, bikuvoa_concept view)
{
    static uint16_t lent[BIKUVOA_DECIDE_WORDS]; /* static: for one thread only */
    uint64_t objects, object;
    uint16_t returned = bikuvoa_decide(schema.words, schema.length, query.words, query.length, view.words, view.length, lent,
                                       BIKUVOA_DECIDE_WORDS, &objects, &object);
    switch (bikuvoa_verdict_of(returned, &objects)) {
    case BIKUVOA_HELD:
        printf("HELD\n");
        return 0;
    case BIKUVOA_OPEN:
        printf("OPEN: in the query and not in the view is %d, where\n", (int)object);
        print_facts(lent);
        return 0;
    default:
        printf("REFUSED: %s\n", bikuvoa_refusal_text(returned));
        return 1;
    }
}

int main(void)
{
    enum { ROOM = BIKUVOA_MAX_CONCEPT_WORDS };
    uint16_t schema_words[BIKUVOA_MAX_SCHEMA_WORDS], words[5][ROOM];
    bikuvoa_schema schema = club(schema_words, BIKUVOA_MAX_SCHEMA_WORDS);
    bikuvoa_concept rowers = rowers_who_attend(words[0], ROOM), recorded = recorded_persons(words[1], ROOM);
    bikuvoa_concept stroke = beats_of_the_stroke(words[2], ROOM);
    bikuvoa_concept of_rowers = beats_of_rowers(words[3], ROOM), attended = beats_of_attended_sessions(words[4], ROOM);

    printf("rowers who attend, from the list of recorded persons: ");
    if (decide(schema, rowers, recorded)) return 1;
    printf("recorded persons, from a list of rowers who attend: ");
    if (decide(schema, recorded, rowers)) return 1;
    printf("beats of the session's stroke, from a list of beats of rowers: ");
    if (decide(schema, stroke, of_rowers)) return 1;
    printf("beats of the session's stroke, from a list of beats of attended sessions: ");
    return decide(schema, stroke, attended);
}
