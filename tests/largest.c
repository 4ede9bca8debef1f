#include "largest.h"

bikuvoa_state largest_state(size_t marks)
{
    static uint16_t words[BIKUVOA_STATE_WORDS(15384 + 1)];
    bikuvoa_state largest = bikuvoa_start_state(words, sizeof words / sizeof *words, 480);
    for (size_t d = 0; d < 480; d++) {
        for (size_t a = 0; a < 24; a++) bikuvoa_member(&largest, a, d);
        for (size_t p = 0; p < 8; p++) bikuvoa_pair(&largest, p, d, d);
    }
    for (size_t k = 0; k < 4; k++) bikuvoa_name(&largest, k, k);
    for (size_t k = 0; k < marks; k++) bikuvoa_choose(&largest, k, 479);
    for (size_t e = 1; e <= 20 - marks; e++) bikuvoa_pair(&largest, 0, 0, e);
    return largest;
}

Record largest_schema(void)
{
    static uint16_t words[BIKUVOA_SCHEMA_WORDS(1)];
    bikuvoa_schema schema = bikuvoa_start_schema(words, BIKUVOA_SCHEMA_WORDS(1), 24, 8, 4);
    bikuvoa_relates(&schema, 0, 0, 0);
    return (Record){schema.length, schema.words};
}
