/* The scanners: their fresh state, one step of any state, and all that they yield. */
#include "question.h"

#include <string.h>

#include "../../include/rack.h"

enum { CAP = 4, OPEN = 6, OPEN_COUNT = 38, PENDING = 39, PENDING_COUNT = 103, PENDING_INDEX = 104, DEPTH = 32 };

/* A scanner: its state's cells, where the position stands among them, what they may hold, its two entries, how what is found is
 * told, and its state. */
struct scanner {
    size_t cells, pos;
    const uint32_t *limits;
    size_t limited;
    struct entry fresh, step;
    bool has_set;
    /* Which of an entry's values the Rust tells first, second and so on. */
    size_t order[4], told;
    void (*put_state)(const struct question *q, const struct text *text, const uint8_t *state, struct answer *a);
};

static uint32_t fresh_fence(const void *of, const struct lent *l)
{
    const struct question *q = of;
    return rack_fence_new(q->byte, q->min, q->eol, q->sep, q->tab, l->work.at, l->work.len);
}

static uint32_t step_fence(const void *of, const struct lent *l)
{
    (void)of;
    return rack_fence_step(l->read[0].at, l->read[0].len, l->work.at, l->work.len, l->answer.at, l->answer.len);
}

static uint32_t fresh_marker(const void *of, const struct lent *l)
{
    const struct question *q = of;
    return rack_marker_new(q->eol, q->sep, q->tab, l->read[0].at, l->read[0].len, l->work.at, l->work.len);
}

static uint32_t step_marker(const void *of, const struct lent *l)
{
    (void)of;
    return rack_marker_step(l->read[0].at, l->read[0].len, l->read[1].at, l->read[1].len, l->work.at, l->work.len,
                            l->answer.at, l->answer.len);
}

static uint32_t fresh_numbered(const void *of, const struct lent *l)
{
    const struct question *q = of;
    return rack_numbered_new(q->eol, q->sep, q->tab, l->read[0].at, l->read[0].len, l->work.at, l->work.len);
}

static uint32_t step_numbered(const void *of, const struct lent *l)
{
    (void)of;
    return rack_numbered_step(l->read[0].at, l->read[0].len, l->read[1].at, l->read[1].len, l->work.at, l->work.len,
                              l->answer.at, l->answer.len);
}

static uint32_t fresh_cont(const void *of, const struct lent *l)
{
    const struct question *q = of;
    return rack_cont_new(q->byte, q->eol, q->sep, q->tab, q->nest, l->work.at, l->work.len);
}

static uint32_t step_cont(const void *of, const struct lent *l)
{
    (void)of;
    return rack_cont_step(l->read[0].at, l->read[0].len, l->work.at, l->work.len, l->answer.at, l->answer.len);
}

/* So many cells of a state, from `from` on. */
static void put_array(struct answer *a, enum kind kind, size_t columns, const uint8_t *state, size_t from, size_t len)
{
    begin(a, kind, columns);
    if (a->room - a->len < len)
        make_room(a, len);
    for (size_t k = 0; k < len; k++)
        a->numbers[a->len + k] = rack_number(state + (from + k) * NUMBER);
    a->len += len;
    a->words[a->words_len - 1].len = len;
}

/* Cells from `from` up to `to`, each a word. */
static void put_cells(struct answer *a, const uint8_t *state, size_t from, size_t to)
{
    put_array(a, EACH, 1, state, from, to - from);
}

static void put_fence(const struct question *q, const struct text *text, const uint8_t *state, struct answer *a)
{
    (void)q;
    put_cells(a, state, 0, 5);
    put_asked(a, TEXT, text->bytes.run);
    put_cells(a, state, 5, 6);
}

static void put_item(const struct question *q, const struct text *text, const uint8_t *state, struct answer *a)
{
    put_cells(a, state, 0, 3);
    put_asked(a, LENT, q->accepted.run);
    put_array(a, LIST, 1, state, 4, 3);
    put_cells(a, state, 7, 9);
    put_asked(a, TEXT, text->bytes.run);
    put_cells(a, state, 3, 4);
}

static void put_cont(const struct question *q, const struct text *text, const uint8_t *state, struct answer *a)
{
    (void)q;
    put_cells(a, state, 0, 5);
    put_cells(a, state, OPEN_COUNT, OPEN_COUNT + 1);
    put_array(a, CELLS, 1, state, OPEN, DEPTH);
    put_cells(a, state, PENDING_COUNT, PENDING_INDEX + 1);
    put_array(a, CELLS, 2, state, PENDING, 2 * DEPTH);
    put_asked(a, TEXT, text->bytes.run);
    put_cells(a, state, 5, 6);
}

static const uint32_t fence_limits[] = {255, 255, 255, 255, 255, UINT32_MAX};
static const uint32_t item_limits[] = {255, 255, 255, UINT32_MAX, 255, 255, 255, UINT32_MAX, 1};

/* Its other cells may hold any number, which may be one that the scanner refuses. */
static const uint32_t cont_limits[] = {255, 255, 255, 255};

static const struct scanner fence = {6, 5, fence_limits, 6,
    {"rack_fence_new", "2", fresh_fence}, {"rack_fence_step", "12", step_fence}, false, {0, 1}, 2, put_fence};
static const struct scanner marker = {9, 3, item_limits, 9,
    {"rack_marker_new", "2", fresh_marker}, {"rack_marker_step", "12", step_marker}, true, {2, 0, 1}, 3, put_item};
static const struct scanner numbered = {9, 3, item_limits, 9,
    {"rack_numbered_new", "2", fresh_numbered}, {"rack_numbered_step", "12", step_numbered}, true, {3, 2, 0, 1}, 4, put_item};
static const struct scanner cont = {MOST_CELLS, 5, cont_limits, 4,
    {"rack_cont_new", "2", fresh_cont}, {"rack_cont_step", "12", step_cont}, false, {0, 1}, 2, put_cont};

/* The fresh state, written over a state of other cells. */
static void make_fresh(const struct scanner *s, const struct question *q, uint8_t *state)
{
    struct run given = {state, s->cells * NUMBER};
    struct call call = {.entry = s->fresh, .of = q, .read = {&q->accepted}, .reads = s->has_set, .work = A_STATE, .given = given};
    struct outcome got;
    memset(state, 77, given.len);
    run_call(&call, &got);
    if (got.refusal)
        give_up("unlike", "a fresh state is refused");
    memcpy(state, got.work.at, given.len);
}

/* One step of a state, which is then the next one. */
static void make_step(const struct scanner *s, const struct question *q, const struct text *text, uint8_t *state, bool is_again,
                      struct outcome *got)
{
    struct call call = call_of(s->step, q, text);
    call.is_again = is_again;
    if (s->has_set)
        call.read[call.reads++] = &q->accepted;
    call.most_values = s->told;
    call.work = A_STATE;
    call.given = (struct run){state, s->cells * NUMBER};
    call.limits = s->limits;
    call.limited = s->limited;
    run_call(&call, got);
    if (!got->refusal)
        memcpy(state, got->work.at, call.given.len);
}

/* What was found, as the Rust tells it. */
static void put_found(const struct scanner *s, const struct outcome *got, struct answer *a)
{
    if (got->count != s->told)
        give_up("unlike", "a step has another number of values");
    for (size_t i = 0; i < s->told; i++)
        put(a, got->values[s->order[i]]);
}

static void ask_fresh(const struct question *q, const struct text *text, size_t place, struct answer *a)
{
    const struct scanner *s = q->form->scanner;
    uint8_t state[MOST_CELLS * NUMBER];
    (void)place;
    make_fresh(s, q, state);
    clear(a, STATE);
    s->put_state(q, text, state, a);
}

static void ask_step(const struct question *q, const struct text *text, size_t place, struct answer *a)
{
    const struct scanner *s = q->form->scanner;
    uint8_t state[MOST_CELLS * NUMBER];
    struct outcome got;
    memcpy(state, q->state, s->cells * NUMBER);
    rack_put_number(state + s->pos * NUMBER, (uint32_t)place);
    make_step(s, q, text, state, false, &got);
    if (got.refusal) {
        refuse(a, got.refusal);
        return;
    }
    clear(a, got.count ? SOME : NONE);
    if (got.count) {
        begin(a, TUPLE, 1);
        put_found(s, &got, a);
    }
    s->put_state(q, text, state, a);
}

static void ask_run(const struct question *q, const struct text *text, size_t place, struct answer *a)
{
    const struct scanner *s = q->form->scanner;
    uint8_t state[MOST_CELLS * NUMBER];
    (void)place;
    make_fresh(s, q, state);
    clear(a, ALL);
    begin(a, LIST, s->told);
    /* Each item and each frame has a byte of the text of its own. */
    for (size_t most = text->bytes.run.len + 1; most; most--) {
        struct outcome got;
        make_step(s, q, text, state, a->len, &got);
        if (got.refusal) {
            refuse(a, got.refusal);
            return;
        }
        if (!got.count)
            return;
        put_found(s, &got, a);
    }
    give_up("unlike", "a scanner that yields without end");
}

static void read_blanks(struct words *words, struct question *q)
{
    q->eol = next_byte(words, "the line end is a byte");
    q->sep = next_byte(words, "the separator is a byte");
    q->tab = next_byte(words, "the tab is a byte");
}

/* The first cells of a handmade state. */
static void make_state(struct question *q, const uint32_t *cells, size_t count)
{
    for (size_t k = 0; k < count; k++)
        rack_put_number(q->state + k * NUMBER, cells[k]);
}

static void read_fence(struct words *words, struct question *q)
{
    q->byte = next_byte(words, "the fence byte is a byte");
    q->min = next_byte(words, "the minimum is a byte");
    read_blanks(words, q);
    uint32_t cells[] = {q->byte, q->min, q->eol, q->sep, q->tab};
    make_state(q, cells, sizeof cells / sizeof *cells);
}

static void read_item(struct words *words, struct question *q)
{
    read_blanks(words, q);
    q->accepted = keep_sealed(next_bytes(words, "accepted bytes are a list"));
}

static void read_item_step(struct words *words, struct question *q)
{
    read_item(words, q);
    struct run needles = next_bytes(words, "needles are three bytes");
    if (needles.len != 3)
        give_up("error", "needles are three bytes");
    uint32_t nn = (uint32_t)next_number(words, "the needle count is a number", UINT32_MAX);
    uint32_t streaming = (uint32_t)next_number(words, "the streaming flag is 0 or 1", 255);
    uint32_t cells[] = {q->eol, q->sep, q->tab, 0, needles.at[0], needles.at[1], needles.at[2], nn, streaming};
    make_state(q, cells, sizeof cells / sizeof *cells);
}

static void read_cont(struct words *words, struct question *q)
{
    q->byte = next_byte(words, "the marker byte is a byte");
    read_blanks(words, q);
}

static void read_cont_fresh(struct words *words, struct question *q)
{
    read_cont(words, q);
    q->nest = next_number(words, "the nest is a number", SIZE_MAX);
}

/* A list into so many cells of a handmade state; the others stay 0. */
static void read_cells(struct words *words, const char *what, size_t columns, struct question *q, size_t first, size_t size)
{
    struct numbers list = next_list(words, what, columns);
    if (list.len > size)
        give_up("error", what);
    for (size_t i = 0; i < list.len; i++)
        rack_put_number(q->state + (first + i) * NUMBER, (uint32_t)list.at[i]);
}

static void read_cell(struct words *words, const char *what, struct question *q, size_t cell)
{
    rack_put_number(q->state + cell * NUMBER, (uint32_t)next_number(words, what, UINT32_MAX));
}

static void read_cont_step(struct words *words, struct question *q)
{
    read_cont(words, q);
    uint32_t cells[] = {q->byte, q->eol, q->sep, q->tab};
    make_state(q, cells, sizeof cells / sizeof *cells);
    read_cell(words, "the cap is a number", q, CAP);
    read_cell(words, "the open count is a number", q, OPEN_COUNT);
    read_cells(words, "open cells are up to 32 numbers", 1, q, OPEN, DEPTH);
    read_cell(words, "the pending count is a number", q, PENDING_COUNT);
    read_cell(words, "the pending index is a number", q, PENDING_INDEX);
    read_cells(words, "pending cells are up to 32 START:END", 2, q, PENDING, 2 * DEPTH);
}

const struct form scanner_forms[] = {
    {"fence_new", A_TEXT, 0, 0, read_fence, ask_fresh, &fence},
    {"fence_run", A_TEXT, 0, 0, read_fence, ask_run, &fence},
    {"fence_step", A_PLACE, 0, 1, read_fence, ask_step, &fence},
    {"marker_new", A_TEXT, 0, 0, read_item, ask_fresh, &marker},
    {"marker_run", A_TEXT, 0, 0, read_item, ask_run, &marker},
    {"marker_step", A_PLACE, 0, 0, read_item_step, ask_step, &marker},
    {"numbered_new", A_TEXT, 0, 0, read_item, ask_fresh, &numbered},
    {"numbered_run", A_TEXT, 0, 0, read_item, ask_run, &numbered},
    {"numbered_step", A_PLACE, 0, 0, read_item_step, ask_step, &numbered},
    {"cont_new", A_TEXT, 0, 0, read_cont_fresh, ask_fresh, &cont},
    {"cont_run", A_TEXT, 0, 0, read_cont_fresh, ask_run, &cont},
    {"cont_step", A_PLACE, 0, 0, read_cont_step, ask_step, &cont},
    {0},
};
