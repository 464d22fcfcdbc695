/* One call of the panel, made in several ways that must agree.
 *
 * Each time every lent run is flush against an inaccessible page: first the page behind it, then the page before it. The first time
 * there is room to spare, the second time none, or less than a row; rooms are odd by turns. A list that is read has a part of a row
 * behind it the first time, and the second time rows behind its stated count that would change the answer. Between them rooms are too
 * short, by a byte or by more, which must be refused with 3. After each call every byte of a state, list or answer that wasn't to be
 * written must be as it was, and some behind it; after a text's last call the text; after a request all memory about what is written.
 * Rules and sets, and long texts, lie where nothing can be written. A question that is asked by itself is asked in wrong shapes too,
 * with ample room and with none: columns that differ, counts over the room, lists cut short, states that don't fit. Where it was
 * refused before, the number is the one that the entry tries first. */
#ifndef CALL_H
#define CALL_H

#include "../../include/rack.h"
#include "lend.h"
#include "text.h"

enum { MOST_READ = 10, MOST_VALUES = 12, NUMBER = 4, REGION = 8, ITEM = 20 };

/* The runs as they are lent, and how many regions a list that is read is said to have. */
struct lent {
    struct run read[MOST_READ];
    uint32_t count;
    struct run work;
    struct run answer;
};

/* What is written beside the answer run: nothing, a state, whose bytes are given, or a list. */
enum work { NO_WORK, A_STATE, A_LIST };

/* An entry: its name, the digits of its refusals in the order in which they are tried, 3 for the answer run aside, and what calls it. */
struct entry {
    const char *name, *order;
    uint32_t (*enter)(const void *of, const struct lent *lent);
};

struct call {
    /* The entry, and what it takes beside the runs. */
    struct entry entry;
    const void *of;
    /* Whether a text is huge; whether the call is one of many alike, the first of which is asked in all ways; the runs that are only read. */
    bool is_huge, is_again;
    size_t reads;
    const struct placed *read[MOST_READ];
    /* Which of these are columns: from the first of them up to, but without, the end. */
    size_t columns, columns_end;
    /* Which is a list, where there is one, and its stated count. */
    bool has_list;
    size_t list;
    uint32_t count;
    enum work work;
    /* Whether there is an answer run, and how many values it has at the most. */
    bool has_answer;
    size_t most_values;
    /* The state, or a list's room, and how many bytes a row of it takes. */
    struct run given;
    size_t row;
    /* What the first cells of a state may hold, and how many these are. */
    const uint32_t *limits;
    size_t limited;
};

/* What a call gave: a refusal's number or 0, the values, and the work run as it was left, which stays until the next call. */
struct outcome {
    uint32_t refusal;
    size_t count;
    struct run work;
    uint32_t values[MOST_VALUES];
};

/* Whether a question is asked in wrong shapes too. */
extern bool thorough;

/* The entries that were called, each with how many calls were made, how many of them refused, and how often one was made in several
 * ways; ended by one without a name. */
enum { MOST_ENTRIES = 32 };
struct tally {
    const char *name;
    uint64_t calls, refused, turns;
};
extern struct tally tallies[MOST_ENTRIES + 1];

/* The entry that was called last. */
extern const struct tally *entered;

void run_call(const struct call *call, struct outcome *outcome);

/* Ends the request where memory was written that no call lent. */
void check_slots(void);
/* After a request that was given up: what it left must not be laid to the next one. */
void give_back_slots(void);

#endif
