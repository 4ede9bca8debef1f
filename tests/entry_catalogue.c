/* The catalogue. What it answers is tested by catalogue.c. */
#include "entry.h"

static int call_catalogue(const Record *r, Room room)
{
    return bikuvoa_catalogue(r[SCHEMA].at, r[SCHEMA].words, r[VIEWS].at, r[VIEWS].words, room.lent, r[LENT].words, room.order,
                             r[ORDER].words, room.outs);
}

const Entry entry_catalogue = {
    .name = "catalogue",
    .takes = {[SCHEMA] = 1, [LENT] = 1, [VIEWS] = 1, [ORDER] = 1},
    .lent_words = BIKUVOA_MAX_VIEWS,
    .call = call_catalogue,
};
