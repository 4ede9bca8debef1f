#include "small.h"

static Record x_which(int needs)
{
    size_t words = BIKUVOA_SCHEMA_WORDS(3);
    bikuvoa_schema schema = bikuvoa_start_schema(take(words), words, 2, 1, 1);
    bikuvoa_single(&schema, PERSON, WEARS);
    bikuvoa_relates(&schema, WEARS, PERSON, STRAP);
    if (needs) bikuvoa_necessary(&schema, STRAP, WEARS);
    return (Record){schema.length, schema.words};
}

Record marked_s(size_t marks)
{
    size_t words = BIKUVOA_STATE_WORDS(6 + marks);
    bikuvoa_state state = bikuvoa_start_state(take(words), words, 3);
    bikuvoa_member(&state, PERSON, 0);
    bikuvoa_member(&state, PERSON, 1);
    bikuvoa_member(&state, STRAP, 2);
    bikuvoa_pair(&state, WEARS, 0, 2);
    bikuvoa_pair(&state, WEARS, 1, 2);
    bikuvoa_name(&state, 0, 0);
    for (size_t k = 0; k < marks; k++) bikuvoa_choose(&state, k, k % 3);
    return (Record){state.length, state.words};
}

Record schema_x, schema_x_needs, state_s, no_axioms, one_attribute, no_objects, everything, person;

void make_small_records(void)
{
    schema_x = x_which(0);
    schema_x_needs = x_which(1);
    state_s = marked_s(0);
    no_axioms = declaring(0, 0, 0);
    one_attribute = declaring(0, 1, 0);
    bikuvoa_state empty = bikuvoa_start_state(take(BIKUVOA_STATE_WORDS(0)), BIKUVOA_STATE_WORDS(0), 0);
    no_objects = (Record){empty.length, empty.words};
    everything = concept_of((Tokens)TOKENS(EVERYTHING));
    person = concept_of((Tokens)TOKENS(CLASS(PERSON)));
}

const Selection SELECTED[SELECTIONS] = {
    {TOKENS(EVERYTHING), {1, 1, 1}},
    {TOKENS(CONSTANT(0)), {1, 0, 0}},
    {TOKENS(EMPTY, CLASS(STRAP), FORWARD(WEARS), REACHED), {1, 1, 0}},
    {TOKENS(EMPTY, EVERYTHING, BACKWARD(WEARS), REACHED), {0, 0, 1}},
    {TOKENS(EMPTY, EVERYTHING, FORWARD(WEARS), CONSTANT(0), BACKWARD(WEARS), REACHED), {1, 1, 0}},
    {TOKENS(EMPTY, EVERYTHING, FORWARD(WEARS), CONSTANT(0), BACKWARD(WEARS), EMPTY, COMMON), {1, 0, 0}},
    {TOKENS(EMPTY, REACHED), {1, 1, 1}},
    {TOKENS(CLASS(PERSON), CLASS(STRAP), BOTH), {0, 0, 0}},
    {TOKENS(EMPTY, EVERYTHING, FORWARD(WEARS), EMPTY, CLASS(STRAP), FORWARD(WEARS), COMMON), {1, 1, 0}},
};
