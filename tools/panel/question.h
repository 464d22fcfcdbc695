/* A question with its parameters, ready to be asked of one text or of many. */
#ifndef QUESTION_H
#define QUESTION_H

#include "answer.h"
#include "call.h"
#include "words.h"

/* What a question takes beside its parameters. */
enum takes { NOTHING, A_TEXT, A_PLACE };

enum { MOST_CELLS = 105 };

struct question;
struct scanner;
typedef void ask_fn(const struct question *q, const struct text *text, size_t place, struct answer *a);

/* A question's name, what it takes, the places at which a block asks (from `first` to the length and `past` more), and how its
 * parameters are read and it is asked. */
struct form {
    const char *name;
    enum takes takes;
    size_t first, past;
    void (*read)(struct words *words, struct question *q);
    ask_fn *ask;
    /* Of which scanner. */
    const struct scanner *scanner;
};

struct question {
    const struct form *form;
    uint8_t byte, min, eol, escape, sep, tab;
    struct placed accepted;
    /* Rules: columns, counts being four bytes each; fence rules as two bytes each too. */
    struct placed fences, mins, rules, symmetric, times, openers, closers, counts;
    /* A list's regions, of which so many are stated. */
    struct run list;
    uint32_t count;
    /* Of a work sheet. */
    struct placed markers, delims;
    /* Of an amendment: the cuts, and the replacements. */
    size_t first, second;
    struct text *replacements;
    size_t replacements_len;
    uint32_t index;
    size_t cells, nest, place;
    /* A handmade state, its position aside. */
    uint8_t state[MOST_CELLS * NUMBER];
};

/* The forms of each group, ended by one without a name. */
extern const struct form leaf_forms[], scanner_forms[], context_forms[], sheet_forms[], reason_forms[], amend_forms[];

/* The bytes of numbers, four each; every `columns`-th from `first` on. */
struct run bytes_of_numbers(struct numbers list, size_t first, size_t columns);
struct placed column_of_numbers(struct numbers list, size_t first, size_t columns);
struct placed column_of_bytes(struct numbers list, size_t first, size_t columns);

/* A list's regions, all of which are stated. */
void read_regions(struct words *words, struct question *q);

void read_fences(struct words *words, struct question *q);
void read_symmetric(struct words *words, struct question *q);
void read_asymmetric(struct words *words, struct question *q);
/* The grammar bytes and all rules. */
void read_grammar(struct words *words, struct question *q);

/* The regions that a text has by a question's grammar, which stay until the next such call; or a refusal as the answer. */
bool regions_of(const struct question *q, const struct text *text, struct run *regions, struct answer *a);
/* Room for the regions of a text, in bytes. */
size_t room_for_regions(const struct text *text);

/* A call that reads this text first, and answers one value. */
static inline struct call call_of(struct entry entry, const void *of, const struct text *text)
{
    return (struct call){.entry = entry, .of = of, .is_huge = text->size == HUGE, .read = {&text->bytes}, .reads = 1, .has_answer = true,
                         .most_values = 1};
}

/* The call reads these columns next. */
static inline void read_columns(struct call *call, const struct placed *const *columns, size_t count)
{
    call->columns = call->reads;
    memcpy(call->read + call->reads, columns, count * sizeof *columns);
    call->columns_end = call->reads += count;
}
/* All columns of a question's grammar, the fence rules in two. */
void read_rules(struct call *call, const struct question *q);

/* The call writes a list of such rows. */
static inline void write_list(struct call *call, size_t row, size_t room)
{
    call->work = A_LIST;
    call->row = row;
    call->given.len = room;
}

/* How many rows an entry counts, which must be as many as another entry's list has. */
void check_count(const struct call *call, const struct outcome *listed);

#endif
