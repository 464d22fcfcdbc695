/* Explanations: why each line isn't on the house sheet. */
#include "list.h"

#include "../../include/rack.h"

/* What an explanation may say of a line: that there is none, and that it is hidden. */
enum { NO_LINE = 1, HIDDEN = 6, HIDDEN_VALUES = 4 };

static uint32_t enter_explain(const void *of, const struct lent *l)
{
    const size_t *line = of;
    const struct run *r = l->read;
    return rack_explain(r[0].at, r[0].len, r[1].at, r[1].len, l->count, *line, l->answer.at, l->answer.len);
}

static const struct entry explained = {"rack_explain", "15", enter_explain};

/* A list as it is lent, and its stated count. */
struct stated {
    const struct placed *list;
    uint32_t count;
};

/* Puts the reason of a line, and the three numbers of the region where it is hidden, else 0; a refusal is handed back. */
static uint32_t put_reason(const struct text *text, struct stated by, size_t line, uint32_t *reason, struct answer *a)
{
    struct call call = call_of(explained, &line, text);
    struct outcome got;
    read_list(&call, by.list, by.count);
    call.is_again = line;
    call.most_values = HIDDEN_VALUES;
    run_call(&call, &got);
    if (got.refusal)
        return got.refusal;
    *reason = got.values[0];
    if (got.count != (*reason == HIDDEN ? HIDDEN_VALUES : 1))
        give_up("unlike", "a reason has one value, and with 6 four");
    for (size_t i = 0; i < HIDDEN_VALUES; i++)
        put(a, i < got.count ? got.values[i] : 0);
    return 0;
}

/* Line 0, each line to the first that isn't there, and the greatest number, by regions of which so many are stated. */
static void put_reasons(const struct text *text, struct run regions, uint32_t count, struct answer *a)
{
    struct placed list = lent_list(regions, count, text->bytes.run.len);
    struct stated by = {&list, count};
    uint32_t reason = 0, refusal = 0;
    clear(a, ALL);
    begin(a, LIST, HIDDEN_VALUES);
    for (size_t line = 0; !refusal && (line <= 1 || reason != NO_LINE); line++)
        refusal = put_reason(text, by, line, &reason, a);
    if (!refusal)
        refusal = put_reason(text, by, SIZE_MAX, &reason, a);
    if (refusal)
        refuse(a, refusal);
    check_list(&list);
}

static void ask_context_reasons(const struct question *q, const struct text *text, size_t place, struct answer *a)
{
    struct run regions;
    (void)place;
    if (regions_of(q, text, &regions, a))
        put_reasons(text, regions, (uint32_t)(regions.len / REGION), a);
}

static void ask_reasons(const struct question *q, const struct text *text, size_t place, struct answer *a)
{
    (void)place;
    put_reasons(text, q->list, q->count, a);
}

static void read_reasons(struct words *words, struct question *q)
{
    uint32_t count = (uint32_t)next_number(words, "the count is a number", UINT32_MAX);
    read_regions(words, q);
    q->count = count;
}

const struct form reason_forms[] = {
    {"context_reasons", A_TEXT, 0, 0, read_grammar, ask_context_reasons, NULL},
    {"reasons", A_TEXT, 0, 0, read_reasons, ask_reasons, NULL},
    {0},
};
