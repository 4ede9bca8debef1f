#include "faulty.h"
#include "calls.h"
#include "small.h"

static Record bad_schemas[3], bad_concepts[4], bad_states[5], both_views, bad_catalogue;

static Record catalogue_of(Record first, Record second)
{
    size_t words = BIKUVOA_CATALOGUE_SIZES(2) + first.words + second.words;
    bikuvoa_views v = bikuvoa_start_views(take(words), words);
    bikuvoa_view(&v, first.at, first.words);
    bikuvoa_view(&v, second.at, second.words);
    return (Record){v.length, v.words};
}

void make_faulty_records(void)
{
    bad_schemas[0] = (Record){schema_x.words - 1, schema_x.at};
    bikuvoa_schema loose = bikuvoa_start_schema(take(BIKUVOA_SCHEMA_WORDS(0)), BIKUVOA_SCHEMA_WORDS(0), 2, 1, 1);
    bikuvoa_loose(&loose, 1);
    bad_schemas[1] = (Record){loose.length, loose.words};
    bikuvoa_schema kind_6 = bikuvoa_start_schema(take(BIKUVOA_SCHEMA_WORDS(1)), BIKUVOA_SCHEMA_WORDS(1), 2, 1, 1);
    bikuvoa_axiom(&kind_6, (BIKUVOA_RELATES + 1) * BIKUVOA_BYTE_PART, 0);
    bad_schemas[2] = (Record){kind_6.length, kind_6.words};

    bikuvoa_concept steps = bikuvoa_start_concept(take(BIKUVOA_CONCEPT_WORDS(1)), BIKUVOA_CONCEPT_WORDS(1));
    bikuvoa_everything(&steps);
    steps.words[BIKUVOA_AT_STEPS] = 1;
    bad_concepts[0] = concept_of((Tokens){0, NULL});
    bad_concepts[1] = concept_of((Tokens)TOKENS(CLASS(2)));
    bad_concepts[2] = concept_of((Tokens)TOKENS(EVERYTHING, EVERYTHING));
    bad_concepts[3] = (Record){steps.length, steps.words};

    bad_states[0] = (Record){state_s.words - 1, state_s.at};
    bikuvoa_state outside = bikuvoa_start_state(take(BIKUVOA_STATE_WORDS(1)), BIKUVOA_STATE_WORDS(1), 1);
    bikuvoa_name(&outside, 0, 1);
    bad_states[1] = (Record){outside.length, outside.words};
    bikuvoa_state turned = bikuvoa_start_state(take(BIKUVOA_STATE_WORDS(2)), BIKUVOA_STATE_WORDS(2), 1);
    bikuvoa_member(&turned, STRAP, 0);
    bikuvoa_name(&turned, 0, 0);
    uint16_t first = turned.words[BIKUVOA_STATE_SIZES];
    turned.words[BIKUVOA_STATE_SIZES] = turned.words[BIKUVOA_STATE_SIZES + 1];
    turned.words[BIKUVOA_STATE_SIZES + 1] = first;
    bad_states[2] = (Record){turned.length, turned.words};
    bikuvoa_state miscounted = bikuvoa_start_state(take(BIKUVOA_STATE_WORDS(1)), BIKUVOA_STATE_WORDS(1), 1);
    bikuvoa_name(&miscounted, 0, 0);
    miscounted.words[BIKUVOA_AT_CLASS_FACTS] = 1;
    bad_states[3] = (Record){miscounted.length, miscounted.words};
    bikuvoa_state unnamed = bikuvoa_start_state(take(BIKUVOA_STATE_WORDS(0)), BIKUVOA_STATE_WORDS(0), 1);
    bad_states[4] = (Record){unnamed.length, unnamed.words};

    both_views = catalogue_of(everything, person);
    bad_catalogue = (Record){both_views.words - 1, both_views.at};
}

enum { MOST_REFUSALS = 5 };
static const int REFUSALS[PLACES][MOST_REFUSALS] = {
    {BIKUVOA_BAD_SCHEMA_SHAPE, BIKUVOA_BAD_LOOSE, BIKUVOA_BAD_AXIOM},
    {BIKUVOA_BAD_CONCEPT_SHAPE, BIKUVOA_BAD_TOKEN, BIKUVOA_BAD_PILE, BIKUVOA_BAD_STEPS},
    {BIKUVOA_BAD_CONCEPT_SHAPE, BIKUVOA_BAD_TOKEN, BIKUVOA_BAD_PILE, BIKUVOA_BAD_STEPS},
    {BIKUVOA_BAD_STATE_SHAPE, BIKUVOA_BAD_FACT, BIKUVOA_BAD_ORDER, BIKUVOA_BAD_CLASS_FACTS, BIKUVOA_BAD_CONSTANTS},
    {BIKUVOA_FEW_LENT_WORDS}, {BIKUVOA_BAD_ATTRIBUTE}, {BIKUVOA_BAD_CATALOGUE}, {BIKUVOA_FEW_LENT_WORDS},
};

int refusal_of(int place, int n)
{
    return n < MOST_REFUSALS ? REFUSALS[place][n] : 0;
}

Record faulty_at(int place, int n, size_t lent_words)
{
    const Record few = WORDS(lent_words - 1), undeclared = NUMBER(WEARS + 1), few_order = WORDS(BIKUVOA_MAX_VIEWS - 1);
    switch (place) {
    case SCHEMA: return bad_schemas[n];
    case STATE: return bad_states[n];
    case LENT: return few;
    case ATTRIBUTE: return undeclared;
    case VIEWS: return bad_catalogue;
    case ORDER: return few_order;
    default: return bad_concepts[n];
    }
}

Record good_at(int place, size_t lent_words)
{
    const Record good[PLACES] = {
        schema_x, everything, person, state_s, WORDS(lent_words), NUMBER(WEARS), both_views, WORDS(BIKUVOA_MAX_VIEWS)};
    return good[place];
}
