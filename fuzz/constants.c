#include "constants.h"
#include "facts.h"

Count undeclared_loose = {"loose and not declared", 0}, shared_object = {"one object of several constants", 0};
const Part constants_part = {NULL, {&undeclared_loose, &shared_object}};

static size_t named_by(Words state, size_t k)
{
    return object_of(state, BIKUVOA_CONSTANT_KINDS + k);
}

int share(Words state, unsigned constants)
{
    for (size_t a = 0; a < BIKUVOA_MAX_CONSTANTS; a++)
        for (size_t b = 0; b < a; b++)
            if ((constants >> a & 1) && (constants >> b & 1) && named_by(state, a) == named_by(state, b)) return 1;
    return 0;
}

int are_names(Words schema, Words state)
{
    unsigned declared = (1u << schema.at[BIKUVOA_AT_CONSTANTS]) - 1, loose = schema.at[BIKUVOA_AT_LOOSE];
    for (size_t k = 0; declared >> k; k++)
        if (named_by(state, k) == BIKUVOA_MAX_OBJECTS) return 0;
    return !share(state, declared & ~loose);
}
