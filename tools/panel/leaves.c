/* The leaves of common.rs, and the bytes searched for. */
#include "question.h"

#include "../../include/rack.h"

/* A leaf's question at a place. */
struct at {
    const struct question *q;
    size_t place;
};

static uint32_t enter_find_line_end(const void *of, const struct lent *l)
{
    const struct at *at = of;
    return rack_find_line_end(l->read[0].at, l->read[0].len, at->place, at->q->eol, l->answer.at, l->answer.len);
}

static uint32_t enter_count_escape(const void *of, const struct lent *l)
{
    const struct at *at = of;
    return rack_count_escape(l->read[0].at, l->read[0].len, at->place, at->q->escape, l->answer.at, l->answer.len);
}

static uint32_t enter_next_in_paragraph(const void *of, const struct lent *l)
{
    const struct at *at = of;
    return rack_next_in_paragraph(l->read[0].at, l->read[0].len, at->place, at->q->byte, at->q->eol,
                                  l->read[1].at, l->read[1].len, l->read[2].at, l->read[2].len,
                                  l->answer.at, l->answer.len);
}

static uint32_t enter_probe_matcher(const void *of, const struct lent *l)
{
    (void)of;
    return rack_probe_matcher(l->read[0].at, l->read[0].len, l->answer.at, l->answer.len);
}

static uint32_t enter_search_bytes(const void *of, const struct lent *l)
{
    (void)of;
    return rack_search_bytes(l->read[0].at, l->read[0].len, l->read[1].at, l->read[1].len, l->read[2].at, l->read[2].len,
                             l->answer.at, l->answer.len);
}

static const struct entry line_end = {"rack_find_line_end", "12", enter_find_line_end},
                          escapes = {"rack_count_escape", "12", enter_count_escape},
                          in_paragraph = {"rack_next_in_paragraph", "162", enter_next_in_paragraph};

/* One value, or none. */
static void tell_value(const struct call *call, struct answer *a)
{
    struct outcome got;
    run_call(call, &got);
    if (got.refusal) {
        refuse(a, got.refusal);
        return;
    }
    clear(a, got.count ? SOME : NONE);
    if (got.count)
        put_alone(a, got.values[0]);
}

static void ask_find_line_end(const struct question *q, const struct text *text, size_t place, struct answer *a)
{
    struct call call = call_of(line_end, &(struct at){q, place}, text);
    tell_value(&call, a);
}

static void ask_count_escape(const struct question *q, const struct text *text, size_t place, struct answer *a)
{
    struct call call = call_of(escapes, &(struct at){q, place}, text);
    tell_value(&call, a);
}

static void ask_next_in_paragraph(const struct question *q, const struct text *text, size_t place, struct answer *a)
{
    const struct placed *const fences[] = {&q->fences, &q->mins};
    struct call call = call_of(in_paragraph, &(struct at){q, place}, text);
    read_columns(&call, fences, 2);
    tell_value(&call, a);
}

/* Values from `from` on as a list. */
static void put_values(struct answer *a, const struct outcome *got, size_t from)
{
    begin(a, LIST, 1);
    for (size_t i = from; i < got->count; i++)
        put(a, got->values[i]);
}

static void ask_probe_matcher(const struct question *q, const struct text *text, size_t place, struct answer *a)
{
    struct call call = {.entry = {"rack_probe_matcher", "", enter_probe_matcher}, .read = {&q->accepted}, .reads = 1, .has_answer = true,
                        .most_values = 5};
    struct outcome got;
    (void)text, (void)place;
    run_call(&call, &got);
    if (got.count != 5 || (!got.values[0] && got.values[1]))
        give_up("unlike", "a probe is a flag, a count that is 0 without it, and three needles");
    clear(a, got.values[0] ? SOME : NONE);
    if (got.values[0])
        put_alone(a, got.values[1]);
    put_values(a, &got, 2);
}

static void ask_build_needles(const struct question *q, const struct text *text, size_t place, struct answer *a)
{
    struct call call = {.entry = {"rack_search_bytes", "", enter_search_bytes}, .read = {&q->fences, &q->symmetric, &q->openers},
                        .reads = 3, .has_answer = true, .most_values = 12};
    struct outcome got;
    (void)text, (void)place;
    run_call(&call, &got);
    clear(a, SOME);
    put_alone(a, got.values[0]);
    put_values(a, &got, 1);
}

static void read_eol(struct words *words, struct question *q)
{
    q->eol = next_byte(words, "the line end is a byte");
}

static void read_escape(struct words *words, struct question *q)
{
    q->escape = next_byte(words, "the escape is a byte");
}

static void read_paragraph(struct words *words, struct question *q)
{
    q->byte = next_byte(words, "the needle is a byte");
    read_eol(words, q);
    read_fences(words, q);
}

static void read_accepted(struct words *words, struct question *q)
{
    q->accepted = keep_sealed(next_bytes(words, "accepted bytes are a list"));
}

static void read_needles(struct words *words, struct question *q)
{
    read_fences(words, q);
    read_symmetric(words, q);
    read_asymmetric(words, q);
}

const struct form leaf_forms[] = {
    {"find_line_end", A_PLACE, 0, 1, read_eol, ask_find_line_end, NULL},
    {"count_escape", A_PLACE, 0, 1, read_escape, ask_count_escape, NULL},
    {"next_in_paragraph", A_PLACE, 0, 1, read_paragraph, ask_next_in_paragraph, NULL},
    {"probe_matcher", NOTHING, 0, 0, read_accepted, ask_probe_matcher, NULL},
    {"build_needles", NOTHING, 0, 0, read_needles, ask_build_needles, NULL},
    {0},
};
