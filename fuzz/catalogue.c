/* The catalogue: the words that its rows and its order take, some more, or one too few. */
#include "check.h"
#include "holds.h"
#include "part.h"

static Count grouped = {"groups of several views", 0}, ahead = {"before a lower number", 0};
static Count other_layout = {"another layout", 0};

/* The views of a catalogue; how many there are, or 0 if it has another layout. */
static size_t views_in(Words views, Words *at)
{
    size_t n = views.words ? views.at[BIKUVOA_AT_VIEWS] : 0, start = BIKUVOA_CATALOGUE_SIZES(n);
    if (n > BIKUVOA_MAX_VIEWS || start > views.words) return 0;
    for (size_t i = 0; i < n; i++) {
        at[i].at = views.at + start;
        at[i].words = views.at[1 + i];
        if (at[i].words > views.words - start) return 0;
        start += at[i].words;
    }
    return start == views.words ? n : 0;
}

static uint16_t bad_views(const Words *r)
{
    Words views[BIKUVOA_MAX_VIEWS];
    size_t n = views_in(r[VIEWS], views);
    uint16_t returned = n ? 0 : BIKUVOA_BAD_CATALOGUE;
    other_layout.times += n == 0;
    for (size_t i = 0; i < n && !returned; i++)
        returned = bikuvoa_view_refusal(r[SCHEMA].at, r[SCHEMA].words, views[i].at, views[i].words);
    return returned;
}

/* The group of view i, if it has no narrower one among the views still to come; else 0. */
static uint16_t next_group(const uint16_t *rows, uint16_t to_come, size_t i)
{
    uint16_t group = 0;
    for (size_t j = 0; j < BIKUVOA_MAX_VIEWS; j++) {
        int narrow = rows[j] >> i & 1, wide = rows[i] >> j & 1;
        if (narrow && wide) group |= (uint16_t)(1u << j);
        if (narrow && !wide && (to_come >> j & 1)) return 0;
    }
    return group;
}

/* The order that the rows give: always the lowest view that can come. */
static void check_order(const uint16_t *rows, size_t n, const uint16_t *order, uint64_t groups)
{
    uint16_t to_come = (uint16_t)((1u << n) - 1);
    for (size_t k = 0; k < BIKUVOA_MAX_VIEWS; k++) {
        uint16_t group = 0;
        for (size_t i = 0; i < n && !group; i++)
            if (to_come >> i & 1) group = next_group(rows, to_come, i);
        CHECK(order[k] == group && (k < groups) == (group != 0));
        grouped.times += (group & (group - 1)) != 0;
        ahead.times += group != 0 && (to_come & (~to_come + 1) & group) == 0;
        to_come &= (uint16_t)~group;
    }
    CHECK(to_come == 0);
}

/* The rows are what holds says of each pair. */
static uint16_t ordered(const Words *r, size_t rows_room, size_t order_room)
{
    Words rows = lent(LENT, rows_room), order = lent(ORDER, order_room), views[BIKUVOA_MAX_VIEWS];
    uint64_t groups = UNTOUCHED_OUT;
    uint16_t returned = bikuvoa_catalogue(r[SCHEMA].at, r[SCHEMA].words, r[VIEWS].at, r[VIEWS].words, rows.at, rows.words,
                                          order.at, order.words, &groups);
    if (returned) {
        CHECK(groups == UNTOUCHED_OUT && untouched(rows, 0) && untouched(order, 0));
        return returned;
    }
    size_t n = views_in(r[VIEWS], views);
    CHECK(n > 0 && untouched(rows, BIKUVOA_MAX_VIEWS) && untouched(order, BIKUVOA_MAX_VIEWS));
    for (size_t i = 0; i < BIKUVOA_MAX_VIEWS; i++) {
        CHECK(rows.at[i] >> n == 0 && (i < n || rows.at[i] == 0));
        for (size_t j = 0; i < n && j < n; j++) CHECK((rows.at[i] >> j & 1) == (int)held_by(r[SCHEMA], views[i], views[j]));
    }
    check_order(rows.at, n, order.at, groups);
    return 0;
}

static void check_catalogue(const Asked *a)
{
    const size_t rows_room = BIKUVOA_MAX_VIEWS + a->rooms % 3 - (a->rooms / 32 == 0);
    const size_t order_room = BIKUVOA_MAX_VIEWS + a->rooms % 5 - (a->rooms / 32 == 1);
    const uint16_t few = first(few_words(rows_room, BIKUVOA_MAX_VIEWS), few_words(order_room, BIKUVOA_MAX_VIEWS));
    CHECK(ordered(a->r, rows_room, order_room) == first(first(a->schema, bad_views(a->r)), few));
}

const Part catalogue_part = {check_catalogue, {&grouped, &ahead, &other_layout}};
