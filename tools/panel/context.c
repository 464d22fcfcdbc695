/* Building, by columns and by rule records, and the cursor. */
#include "list.h"

#include <string.h>

#include "../../include/rack.h"

static uint32_t enter_build(const void *of, const struct lent *l)
{
    const struct question *q = of;
    const struct run *r = l->read;
    return rack_build(r[0].at, r[0].len, q->eol, q->escape, q->sep, q->tab, r[1].at, r[1].len, r[2].at, r[2].len,
                      r[3].at, r[3].len, r[4].at, r[4].len, r[5].at, r[5].len, r[6].at, r[6].len, r[7].at, r[7].len,
                      l->work.at, l->work.len, l->answer.at, l->answer.len);
}

static uint32_t enter_build_rules(const void *of, const struct lent *l)
{
    const struct question *q = of;
    const struct run *r = l->read;
    return rack_build_rules(r[0].at, r[0].len, q->eol, q->escape, q->sep, q->tab, r[1].at, r[1].len, r[2].at, r[2].len,
                            r[3].at, r[3].len, r[4].at, r[4].len, r[5].at, r[5].len, r[6].at, r[6].len,
                            l->work.at, l->work.len, l->answer.at, l->answer.len);
}

static uint32_t enter_build_count(const void *of, const struct lent *l)
{
    const struct question *q = of;
    const struct run *r = l->read;
    return rack_build_count(r[0].at, r[0].len, q->eol, q->escape, q->sep, q->tab, r[1].at, r[1].len, r[2].at, r[2].len,
                            r[3].at, r[3].len, r[4].at, r[4].len, r[5].at, r[5].len, r[6].at, r[6].len, r[7].at, r[7].len,
                            l->answer.at, l->answer.len);
}

static const struct entry by_columns = {"rack_build", "163", enter_build}, by_records = {"rack_build_rules", "163", enter_build_rules},
                          counted = {"rack_build_count", "16", enter_build_count};

/* Builds by columns into a list of so many bytes. */
static void build(const struct question *q, const struct text *text, size_t room, struct outcome *got)
{
    struct call call = call_of(by_columns, q, text);
    read_rules(&call, q);
    write_list(&call, REGION, room);
    run_call(&call, got);
}

/* The same by records. */
static void build_rules(const struct question *q, const struct text *text, size_t room, struct outcome *got)
{
    const struct placed *const rules[] = {&q->rules, &q->symmetric, &q->times, &q->openers, &q->closers, &q->counts};
    struct call call = call_of(by_records, q, text);
    read_columns(&call, rules, sizeof rules / sizeof *rules);
    write_list(&call, REGION, room);
    run_call(&call, got);
}

static void check_build_count(const struct question *q, const struct text *text, const struct outcome *built)
{
    struct call call = call_of(counted, q, text);
    read_rules(&call, q);
    check_count(&call, built);
}

/* Regions lie apart, so that at most every second byte begins one. */
size_t room_for_regions(const struct text *text)
{
    return (text->size == HUGE ? HUGE_ROOM : text->bytes.run.len / 2 + 1) * REGION;
}

/* The regions that a call left, as a copy that stays until the next one. */
static struct run regions_left(const struct outcome *got)
{
    static struct run room;
    size_t len = got->refusal ? 0 : (size_t)got->values[0] * REGION;
    return copied(&room, (struct run){got->work.at, len}, len);
}

/* The regions into a list of so many bytes, built in both ways, which must agree: a copy that stays until the next call. */
static struct run built(const struct question *q, const struct text *text, size_t room, uint32_t *refusal)
{
    struct outcome first, second;
    build(q, text, room, &first);
    struct run regions = regions_left(&first);
    build_rules(q, text, room, &second);
    if (second.refusal != first.refusal || (!second.refusal && second.values[0] * REGION != regions.len) ||
        (regions.len && memcmp(second.work.at, regions.at, regions.len)))
        give_up("unlike", "regions by rack_build and by rack_build_rules");
    if (first.refusal != 3)
        check_build_count(q, text, &first);
    *refusal = first.refusal;
    return regions;
}

static void ask_build(const struct question *q, const struct text *text, size_t place, struct answer *a)
{
    uint32_t refusal;
    struct run regions = built(q, text, room_for_regions(text), &refusal);
    (void)place;
    if (refusal) {
        refuse(a, refusal);
        return;
    }
    clear(a, ALL);
    begin(a, LIST, 2);
    for (size_t i = 0; i < regions.len; i += NUMBER)
        put(a, rack_number(regions.at + i));
}

/* Into so many cells; those that nothing is written to hold what the oracle's held. */
static void ask_into(const struct question *q, const struct text *text, size_t place, struct answer *a)
{
    uint32_t refusal;
    struct run regions = built(q, text, q->cells * NUMBER, &refusal);
    (void)place;
    if (refusal && refusal != 3) {
        refuse(a, refusal);
        return;
    }
    clear(a, SOME);
    put_alone(a, regions.len / REGION);
    put_alone(a, refusal);
    begin(a, LIST, 1);
    for (size_t i = 0; i < q->cells; i++)
        put(a, i * NUMBER < regions.len ? rack_number(regions.at + i * NUMBER) : 1000 + q->cells - i);
}

/* A query: the index and the place. */
struct query {
    uint32_t index;
    size_t place;
};

static uint32_t enter_covering_end(const void *of, const struct lent *l)
{
    const struct query *query = of;
    return rack_covering_end(l->read[0].at, l->read[0].len, l->count, query->index, query->place, l->answer.at, l->answer.len);
}

/* Asks about a list, all of whose regions are stated, for the first time or again. */
static void query(const struct placed *list, struct query query, bool is_again, struct outcome *got)
{
    struct call call = {.entry = {"rack_covering_end", "5", enter_covering_end}, .of = &query, .is_again = is_again, .has_answer = true,
                        .most_values = 2};
    read_list(&call, list, (uint32_t)(list->run.len / REGION));
    run_call(&call, got);
    if (got->refusal || !got->count || got->count > 2)
        give_up("unlike", "a query has an index, and an end or none");
}

/* A query about a list that is given. */
static void query_given(const struct question *q, struct outcome *got)
{
    struct placed list = lent_list(q->list, q->count, UINT32_MAX);
    query(&list, (struct query){q->index, q->place}, false, got);
    check_list(&list);
}

static void ask_covering_end(const struct question *q, const struct text *text, size_t place, struct answer *a)
{
    struct outcome got;
    (void)text, (void)place;
    query_given(q, &got);
    clear(a, got.count == 2 ? SOME : NONE);
    if (got.count == 2)
        put_alone(a, got.values[1]);
    put_alone(a, got.values[0]);
}

static void ask_is_covered(const struct question *q, const struct text *text, size_t place, struct answer *a)
{
    struct outcome got;
    (void)text, (void)place;
    query_given(q, &got);
    clear(a, SOME);
    put_alone(a, got.count == 2);
    put_alone(a, got.values[0]);
}

/* One more query, whose end, or 0, and index are put; the index is the next query's. */
static uint32_t put_query(const struct placed *list, uint32_t index, size_t place, struct answer *a)
{
    struct outcome got;
    query(list, (struct query){index, place}, a->len, &got);
    put(a, got.count == 2 ? got.values[1] : 0);
    put(a, got.values[0]);
    return got.values[0];
}

bool regions_of(const struct question *q, const struct text *text, struct run *regions, struct answer *a)
{
    struct outcome got;
    build_rules(q, text, room_for_regions(text), &got);
    if (got.refusal)
        refuse(a, got.refusal);
    else
        *regions = regions_left(&got);
    return !got.refusal;
}

static void ask_cover(const struct question *q, const struct text *text, size_t place, struct answer *a)
{
    struct run regions;
    uint32_t index = 0;
    (void)place;
    if (!regions_of(q, text, &regions, a))
        return;
    struct placed list = lent_list(regions, (uint32_t)(regions.len / REGION), text->bytes.run.len);
    clear(a, ALL);
    begin(a, LIST, 2);
    for (size_t at = 0; at <= text->bytes.run.len; at++)
        index = put_query(&list, index, at, a);
    for (size_t at = text->bytes.run.len + 1; at--;)
        index = put_query(&list, index, at, a);
    check_list(&list);
}

static void read_into(struct words *words, struct question *q)
{
    q->cells = next_number(words, "cells are a number", UINT32_MAX);
    read_grammar(words, q);
}

static void read_query(struct words *words, struct question *q)
{
    read_regions(words, q);
    q->index = (uint32_t)next_number(words, "the index is a number", UINT32_MAX);
    q->place = next_number(words, "the place is a number", SIZE_MAX);
}

const struct form context_forms[] = {
    {"context_build", A_TEXT, 0, 0, read_grammar, ask_build, NULL},
    {"context_into", A_TEXT, 0, 0, read_into, ask_into, NULL},
    {"context_cover", A_TEXT, 0, 0, read_grammar, ask_cover, NULL},
    {"covering_end", NOTHING, 0, 0, read_query, ask_covering_end, NULL},
    {"is_covered", NOTHING, 0, 0, read_query, ask_is_covered, NULL},
    {0},
};
