/* The work sheet, by rules and by a list. */
#include "list.h"

#include "../../include/rack.h"

static uint32_t enter_sheet(const void *of, const struct lent *l)
{
    const struct question *q = of;
    const struct run *r = l->read;
    return rack_sheet(r[0].at, r[0].len, q->eol, q->escape, q->sep, q->tab, r[1].at, r[1].len, r[2].at, r[2].len,
                      r[3].at, r[3].len, r[4].at, r[4].len, r[5].at, r[5].len, r[6].at, r[6].len, r[7].at, r[7].len,
                      r[8].at, r[8].len, r[9].at, r[9].len, l->work.at, l->work.len, l->answer.at, l->answer.len);
}

static uint32_t enter_sheet_count(const void *of, const struct lent *l)
{
    const struct question *q = of;
    const struct run *r = l->read;
    return rack_sheet_count(r[0].at, r[0].len, q->eol, q->escape, q->sep, q->tab, r[1].at, r[1].len, r[2].at, r[2].len,
                            r[3].at, r[3].len, r[4].at, r[4].len, r[5].at, r[5].len, r[6].at, r[6].len, r[7].at, r[7].len,
                            r[8].at, r[8].len, r[9].at, r[9].len, l->answer.at, l->answer.len);
}

static uint32_t enter_sheet_listed(const void *of, const struct lent *l)
{
    const struct question *q = of;
    const struct run *r = l->read;
    return rack_sheet_listed(r[0].at, r[0].len, q->eol, q->escape, q->sep, q->tab, r[1].at, r[1].len, r[2].at, r[2].len,
                             r[3].at, r[3].len, l->count, l->work.at, l->work.len, l->answer.at, l->answer.len);
}

static uint32_t enter_sheet_listed_count(const void *of, const struct lent *l)
{
    const struct question *q = of;
    const struct run *r = l->read;
    return rack_sheet_listed_count(r[0].at, r[0].len, q->eol, q->escape, q->sep, q->tab, r[1].at, r[1].len, r[2].at, r[2].len,
                                   r[3].at, r[3].len, l->count, l->answer.at, l->answer.len);
}

static const struct entry by_rules = {"rack_sheet", "163", enter_sheet}, counted = {"rack_sheet_count", "16", enter_sheet_count},
                          by_list = {"rack_sheet_listed", "153", enter_sheet_listed},
                          counted_by_list = {"rack_sheet_listed_count", "15", enter_sheet_listed_count};

/* A marker item has two bytes of its own, a numbered one three. */
static size_t room_for_items(const struct text *text)
{
    return (text->size == HUGE ? HUGE_ROOM : text->bytes.run.len + 1) * ITEM;
}

static struct call call_by_rules(struct entry entry, const struct question *q, const struct text *text)
{
    struct call call = call_of(entry, q, text);
    read_rules(&call, q);
    call.read[call.reads++] = &q->markers;
    call.read[call.reads++] = &q->delims;
    return call;
}

static struct call call_by_list(struct entry entry, const struct question *q, const struct text *text, const struct placed *list)
{
    struct call call = call_of(entry, q, text);
    call.read[call.reads++] = &q->markers;
    call.read[call.reads++] = &q->delims;
    read_list(&call, list, (uint32_t)(list->run.len / REGION));
    return call;
}

/* A sheet's refusal, or its items. */
static void put_items(const struct outcome *got, struct answer *a)
{
    if (got->refusal) {
        refuse(a, got->refusal);
        return;
    }
    clear(a, ALL);
    begin(a, LIST, ITEM / NUMBER);
    for (size_t i = 0; i < (size_t)got->values[0] * ITEM; i += NUMBER)
        put(a, rack_number(got->work.at + i));
}

/* Puts the sheet by rules, with its count. */
static void put_by_rules(const struct question *q, const struct text *text, struct answer *a)
{
    struct outcome got;
    struct call call = call_by_rules(by_rules, q, text), count = call_by_rules(counted, q, text);
    write_list(&call, ITEM, room_for_items(text));
    run_call(&call, &got);
    put_items(&got, a);
    check_count(&count, &got);
}

/* Puts the sheet by a list all of whose regions are stated, with its count. */
static void put_by_list(const struct question *q, const struct text *text, struct run regions, struct answer *a)
{
    struct outcome got;
    struct placed list = lent_list(regions, (uint32_t)(regions.len / REGION), text->bytes.run.len);
    struct call call = call_by_list(by_list, q, text, &list), count = call_by_list(counted_by_list, q, text, &list);
    write_list(&call, ITEM, room_for_items(text));
    run_call(&call, &got);
    put_items(&got, a);
    check_count(&count, &got);
    check_list(&list);
}

static void check_same_sheet(const struct answer *a, const struct answer *b)
{
    bool same = a->refusal == b->refusal && a->len == b->len;
    for (size_t i = 0; same && i < a->len; i++)
        same = a->numbers[i] == b->numbers[i];
    if (!same)
        give_up("unlike", "the sheet by rack_sheet and by rack_sheet_listed");
}

/* The sheet by rules, and by the list that the same rules give. */
static void ask_context_sheet(const struct question *q, const struct text *text, size_t place, struct answer *a)
{
    static struct answer other;
    struct run regions;
    (void)place;
    put_by_rules(q, text, a);
    if (regions_of(q, text, &regions, &other))
        put_by_list(q, text, regions, &other);
    check_same_sheet(a, &other);
}

/* The sheet by a list that is given; where it has no region also without rules. */
static void ask_sheet(const struct question *q, const struct text *text, size_t place, struct answer *a)
{
    static struct answer other;
    (void)place;
    put_by_list(q, text, q->list, a);
    if (!q->list.len) {
        put_by_rules(q, text, &other);
        check_same_sheet(a, &other);
    }
}

static void read_sets(struct words *words, struct question *q)
{
    q->markers = keep_sealed(next_bytes(words, "marker bytes are a list"));
    q->delims = keep_sealed(next_bytes(words, "delimiters are a list"));
}

static void read_context_sheet(struct words *words, struct question *q)
{
    read_grammar(words, q);
    read_sets(words, q);
}

static void read_sheet(struct words *words, struct question *q)
{
    read_regions(words, q);
    q->eol = next_byte(words, "the line end is a byte");
    q->sep = next_byte(words, "the separator is a byte");
    q->tab = next_byte(words, "the tab is a byte");
    struct placed none = keep_sealed((struct run){keep(0), 0});
    q->fences = q->mins = q->symmetric = q->times = q->openers = q->closers = q->counts = none;
    read_sets(words, q);
}

const struct form sheet_forms[] = {
    {"context_sheet", A_TEXT, 0, 0, read_context_sheet, ask_context_sheet, NULL},
    {"sheet", A_TEXT, 0, 0, read_sheet, ask_sheet, NULL},
    {0},
};
