/* The amendment of a list. */
#include "list.h"

#include "../../include/rack.h"

/* A question's grammar, two cuts, and the text between them. */
struct edit {
    const struct question *q;
    size_t first, second;
    const struct text *replacement;
};

static uint32_t enter_amend(const void *of, const struct lent *l)
{
    const struct edit *e = of;
    const struct question *q = e->q;
    const struct run *r = l->read;
    return rack_amend(r[0].at, r[0].len, r[1].at, r[1].len, l->count, e->first, e->second, r[2].at, r[2].len,
                      q->eol, q->escape, q->sep, q->tab, r[3].at, r[3].len, r[4].at, r[4].len, r[5].at, r[5].len, r[6].at, r[6].len,
                      r[7].at, r[7].len, r[8].at, r[8].len, r[9].at, r[9].len, l->work.at, l->work.len, l->answer.at, l->answer.len);
}

/* An edited text that is too long is refused behind the columns and the cuts, other texts before them. */
static const struct entry amended = {"rack_amend", "64159783", enter_amend}, too_long = {"rack_amend", "1", enter_amend};

static void amend(const struct edit *edit, const struct text *old, const struct placed *list, bool is_again, struct outcome *got)
{
    const struct text *new = edit->replacement;
    bool is_too_long = old->bytes.run.len > UINT32_MAX || new->bytes.run.len > UINT32_MAX;
    struct call call = call_of(is_too_long ? too_long : amended, edit, old);
    call.is_huge |= new->size == HUGE;
    call.is_again = is_again;
    read_list(&call, list, (uint32_t)(list->run.len / REGION));
    call.read[call.reads++] = &new->bytes;
    read_rules(&call, edit->q);
    write_list(&call, REGION, list->run.len + room_for_regions(new));
    run_call(&call, got);
}

static void put_regions(const struct outcome *got, struct answer *a)
{
    for (size_t i = 0; i < (size_t)got->values[0] * REGION; i += NUMBER)
        put(a, rack_number(got->work.at + i));
}

/* One amendment of a text by these regions. */
static void put_amended(const struct question *q, const struct text *text, struct run regions, struct answer *a)
{
    struct outcome got;
    struct placed list = lent_list(regions, (uint32_t)(regions.len / REGION), text->bytes.run.len);
    amend(&(struct edit){q, q->first, q->second, q->replacements}, text, &list, false, &got);
    check_list(&list);
    if (got.refusal) {
        refuse(a, got.refusal);
        return;
    }
    clear(a, ALL);
    begin(a, LIST, 2);
    put_regions(&got, a);
}

static void ask_amend(const struct question *q, const struct text *text, size_t place, struct answer *a)
{
    (void)place;
    put_amended(q, text, q->list, a);
}

static void ask_context_amend(const struct question *q, const struct text *text, size_t place, struct answer *a)
{
    struct run regions;
    (void)place;
    if (regions_of(q, text, &regions, a))
        put_amended(q, text, regions, a);
}

/* Each replacement between two cuts: the refusal, how many regions there are, and their numbers. */
static void put_each(const struct question *q, const struct text *text, const struct placed *list, struct edit edit, struct answer *a)
{
    for (size_t i = 0; i < q->replacements_len; i++) {
        struct outcome got;
        edit.replacement = q->replacements + i;
        amend(&edit, text, list, a->len, &got);
        put(a, got.refusal);
        put(a, got.refusal ? 0 : got.values[0]);
        if (!got.refusal)
            put_regions(&got, a);
    }
}

static void ask_context_amends(const struct question *q, const struct text *text, size_t place, struct answer *a)
{
    struct run regions;
    (void)place;
    if (!regions_of(q, text, &regions, a))
        return;
    clear(a, ALL);
    begin(a, LIST, 1);
    for (size_t first = 0; first <= text->bytes.run.len + 1; first++) {
        struct placed list = lent_list(regions, (uint32_t)(regions.len / REGION), text->bytes.run.len);
        for (size_t second = 0; second <= text->bytes.run.len + 1; second++)
            put_each(q, text, &list, (struct edit){q, first, second, NULL}, a);
        check_list(&list);
    }
}

static void read_context_amend(struct words *words, struct question *q)
{
    q->first = next_number(words, "the first cut is a number", SIZE_MAX);
    q->second = next_number(words, "the second cut is a number", SIZE_MAX);
    q->replacements = keep(sizeof *q->replacements);
    *q->replacements = keep_text(next_text(words));
    read_grammar(words, q);
}

static void read_amend(struct words *words, struct question *q)
{
    read_regions(words, q);
    read_context_amend(words, q);
}

static void read_context_amends(struct words *words, struct question *q)
{
    char *rest = next_word(words, "replacements are missing");
    q->replacements = keep(strlen(rest) * sizeof *q->replacements);
    while (rest)
        q->replacements[q->replacements_len++] = keep_text((struct text_word){0, 0, next_part(&rest)});
    read_grammar(words, q);
}

const struct form amend_forms[] = {
    {"amend", A_TEXT, 0, 0, read_amend, ask_amend, NULL},
    {"context_amend", A_TEXT, 0, 0, read_context_amend, ask_context_amend, NULL},
    {"context_amends", A_TEXT, 0, 0, read_context_amends, ask_context_amends, NULL},
    {0},
};
