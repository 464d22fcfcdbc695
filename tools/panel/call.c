#include "call.h"

#include <stdio.h>
#include <string.h>

bool thorough;
struct tally tallies[MOST_ENTRIES + 1];
const struct tally *entered;

/* What is lent to be written: for the calls whose answers are taken, which stay while others are made, and for those. */
enum use { TAKEN, OTHER, USES };
static struct slot work_slots[USES][SIDES], answer_slots[USES][SIDES];

/* A call with its runs on one side. */
struct made {
    const struct call *call;
    struct slot *work, *answer;
    struct lent lent;
    uint32_t refusal;
};

/* Lends a run of so many bytes with the state, or as much of it as there is room for; what is left holds marks. */
static void lend_state(struct made *e, enum side side, size_t len)
{
    struct run state = e->call->given;
    if (len == state.len) {
        e->lent.work = lend_written(e->work, side, len);
    } else {
        e->lent.work = lend_marked(e->work, side, len);
        is_written(e->work, e->lent.work, len);
    }
    copy_bytes(e->lent.work.at, state.at, len < state.len ? len : state.len);
}

/* Where an entry's calls are counted. */
static struct tally *tally_of(const char *name)
{
    struct tally *tally = tallies;
    while (tally->name != name && tally->name)
        tally++;
    if (tally == tallies + MOST_ENTRIES)
        give_up("error", "more entries than are counted");
    tally->name = name;
    return tally;
}

/* Lends all runs, a state or list and the answer with so many bytes, and calls. */
static void enter(struct made *e, const struct call *call, enum use use, enum side side, size_t work_len, size_t answer_len)
{
    e->call = call;
    e->work = &work_slots[use][side];
    e->answer = &answer_slots[use][side];
    for (size_t i = 0; i < call->reads; i++)
        e->lent.read[i] = call->read[i]->at[side];
    e->lent.count = call->count;
    if (call->work == A_LIST)
        e->lent.work = lend_marked(e->work, side, work_len);
    if (call->work == A_STATE)
        lend_state(e, side, work_len);
    if (call->has_answer)
        e->lent.answer = lend_marked(e->answer, side, answer_len);
    struct tally *tally = tally_of(call->entry.name);
    entered = tally;
    e->refusal = call->entry.enter(call->of, &e->lent);
    tally->calls++;
    tally->refused += e->refusal != 0;
}

/* After a refusal all must be as it was. */
static void check_refused(const struct made *e)
{
    const struct call *call = e->call;
    struct run work = e->lent.work;
    size_t given = call->given.len < work.len ? call->given.len : work.len;
    if (call->work == A_STATE && !is_same(work.at, call->given.at, given))
        give_up("changed", "a state, by a refusal");
    if (call->work != NO_WORK && !is_marked_from(e->work, work, call->work == A_STATE ? given : 0))
        give_up("changed", "a list, or bytes behind a state, by a refusal");
    if (call->has_answer && !is_marked_from(e->answer, e->lent.answer, 0))
        give_up("changed", "the answer run, by a refusal");
}

/* How many bytes a list's rows take. */
static size_t listed(const struct call *call, const struct outcome *outcome)
{
    return call->work == A_LIST && outcome->count ? (size_t)outcome->values[0] * call->row : 0;
}

/* How many bytes an answer takes. */
static size_t answered(const struct outcome *outcome)
{
    return (outcome->count + 1) * NUMBER;
}

/* Reads the answer run, and checks that nothing behind the values is written. */
static void read_answer(const struct made *e, struct outcome *outcome)
{
    struct run run = e->lent.answer;
    outcome->count = rack_number(run.at);
    if (outcome->count > e->call->most_values || answered(outcome) > run.len)
        give_up("unlike", "more values than any entry has");
    for (size_t i = 0; i < outcome->count; i++)
        outcome->values[i] = rack_number(run.at + (i + 1) * NUMBER);
    if (!is_marked_from(e->answer, run, answered(outcome)))
        give_up("changed", "bytes behind the answer");
    is_written(e->answer, run, answered(outcome));
}

/* One call, and all that is to be looked at behind it. */
static void once(const struct call *call, enum use use, enum side side, size_t work_len, size_t answer_len, struct outcome *outcome)
{
    struct made e;
    enter(&e, call, use, side, work_len, answer_len);
    outcome->refusal = e.refusal;
    outcome->count = 0;
    outcome->work = (struct run){0};
    if (e.refusal) {
        check_refused(&e);
        return;
    }
    if (call->has_answer)
        read_answer(&e, outcome);
    if (call->work == NO_WORK)
        return;
    outcome->work = e.lent.work;
    if (call->work == A_STATE)
        return;
    if (listed(call, outcome) > work_len)
        give_up("unlike", "more rows than there is room for");
    if (!is_marked_from(e.work, e.lent.work, listed(call, outcome)))
        give_up("changed", "bytes behind the list");
    is_written(e.work, e.lent.work, listed(call, outcome));
}

/* A call that must be refused with this number, wherever the runs lie. */
static void refused(const struct call *call, uint32_t refusal, size_t work_len, size_t answer_len)
{
    for (int side = BEHIND; side < SIDES; side++) {
        struct made e;
        enter(&e, call, OTHER, side, work_len, answer_len);
        if (e.refusal != refusal) {
            char why[80];
            snprintf(why, sizeof why, "a wrong shape or room gives %u in place of the refusal %u", (unsigned)e.refusal, (unsigned)refusal);
            give_up("unlike", why);
        }
        check_refused(&e);
    }
}

/* Room to spare beside what an answer takes. */
static size_t ample(const struct call *call)
{
    return (call->most_values + 1) * NUMBER + 7;
}

/* The same for a number that is tried before any room: there is ample room, or none. */
static void refused_first(const struct call *call, uint32_t refusal, size_t work_len)
{
    refused(call, refusal, work_len, ample(call));
    refused(call, refusal, call->work == A_LIST ? 0 : work_len, 0);
}

static void check_same(const struct call *call, const struct outcome *a, const struct outcome *b)
{
    bool same = a->refusal == b->refusal && a->count == b->count;
    for (size_t i = 0; same && i < a->count; i++)
        same = a->values[i] == b->values[i];
    if (!same)
        give_up("unlike", "another answer where the runs lie elsewhere, or rows stand behind a count");
    size_t written = call->work == A_LIST ? listed(call, a) : call->given.len;
    if (call->work != NO_WORK && !a->refusal && !is_same(a->work.at, b->work.at, written))
        give_up("unlike", "another state or list where the runs lie elsewhere");
}

/* The length of the work run where a list has so many bytes; a state's is its own. */
static size_t work_room(const struct call *call, size_t list)
{
    return call->work == A_LIST ? list : call->given.len;
}

/* Lists and answers that are too short. */
static void too_short(const struct call *call, const struct outcome *full, bool by_more)
{
    size_t list = listed(call, full), answer = call->has_answer ? answered(full) : 0;
    for (size_t less = 1; less <= answer; less += by_more ? 1 : answer)
        refused(call, 3, work_room(call, list), answer - less);
    const size_t lesses[] = {1, NUMBER, call->row, list};
    for (size_t i = 0; list && i < (by_more ? sizeof lesses / sizeof *lesses : 1); i++)
        refused(call, 3, list - lesses[i], answer);
}

/* Lists and answers that are just long enough, and a part of a row longer, or of a number. */
static void odd_rooms(const struct call *call, const struct outcome *full)
{
    size_t list = listed(call, full), answer = call->has_answer ? answered(full) : 0;
    size_t longest = call->work == A_LIST ? call->row : NUMBER;
    for (size_t more = 0; more < longest; more++) {
        struct outcome got;
        once(call, OTHER, more % SIDES, work_room(call, list + more), answer + more % NUMBER, &got);
        check_same(call, full, &got);
    }
}

/* Of two numbers that would refuse a call, 0 being none, the one that is tried first. */
static uint32_t tried_first(const struct call *call, uint32_t a, uint32_t b)
{
    for (const char *digit = call->entry.order; *digit; digit++)
        if (a == (uint32_t)(*digit - '0') || b == (uint32_t)(*digit - '0'))
            return (uint32_t)(*digit - '0');
    return a ? a : b;
}

/* A call with another run in the place of one that it reads. */
static struct call with_run(const struct call *call, size_t i, struct run run)
{
    struct call other = *call;
    struct placed *placed = keep(sizeof *placed);
    *placed = keep_sealed(run);
    other.read[i] = placed;
    return other;
}

/* Columns that are a byte longer. */
static void columns_differ(const struct call *call, uint32_t refusal)
{
    for (size_t i = call->columns; i < call->columns_end; i++) {
        size_t len = call->read[i]->run.len + 1;
        struct call other = with_run(call, i, (struct run){memset(keep(len), 1, len), len});
        refused_first(&other, tried_first(call, 6, refusal), call->given.len);
    }
}

/* Counts over a list's room, some of which have few low bits; and lists that are shorter than what is stated. */
static void counts_over(const struct call *call, uint32_t refusal)
{
    struct run list = call->read[call->list]->run;
    uint32_t room = (uint32_t)(list.len / REGION), number = tried_first(call, 5, refusal);
    const uint32_t counts[] = {room + 1, room + (UINT32_C(1) << 29), UINT32_C(1) << 31, UINT32_MAX};
    struct call other = with_run(call, call->list, list);
    for (size_t i = 0; i < sizeof counts / sizeof *counts; i++) {
        other.count = counts[i];
        refused_first(&other, number, call->given.len);
    }
    for (size_t less = 1; less <= REGION && call->count == room && room; less++) {
        other = with_run(call, call->list, (struct run){list.at, list.len - less});
        refused_first(&other, number, call->given.len);
    }
}

/* States of another length, and with a cell over its limit. */
static void misfits(const struct call *call, uint32_t refusal)
{
    size_t len = call->given.len;
    uint32_t number = tried_first(call, 2, refusal);
    refused_first(call, number, len - 1);
    refused_first(call, number, len + 1);
    for (size_t k = 0; k < call->limited; k++) {
        struct call other = *call;
        if (call->limits[k] == UINT32_MAX)
            continue;
        other.given.at = memcpy(keep(len), call->given.at, len);
        rack_put_number(other.given.at + k * NUMBER, call->limits[k] + 1);
        refused_first(&other, number, len);
    }
}

/* A call that was refused by this number, or by none, in wrong shapes. */
static void in_wrong_shapes(const struct call *call, uint32_t refusal)
{
    columns_differ(call, refusal);
    if (call->has_list)
        counts_over(call, refusal);
    if (call->work == A_STATE)
        misfits(call, refusal);
}

/* By turns none, and each part of a row that a room may have beside its rows. */
static size_t odd(uint64_t turn, size_t row, size_t room)
{
    return turn % (row - room % row);
}

/* A call that was served in rooms that are too short, and in odd ones: always by itself, and for one call in eight of many alike. */
static void in_other_rooms(const struct call *call, const struct outcome *full, uint64_t turn)
{
    bool by_itself = thorough && !call->is_again;
    if (call->is_huge || full->refusal || (!by_itself && turn % 8))
        return;
    too_short(call, full, by_itself);
    if (by_itself)
        odd_rooms(call, full);
}

void run_call(const struct call *call, struct outcome *outcome)
{
    struct outcome first;
    uint64_t turn = ++tally_of(call->entry.name)->turns, odd_turn = turn % 2 ? turn / 2 : 0;
    size_t row = call->work == A_LIST ? call->row : 1;
    once(call, TAKEN, BEHIND, call->given.len + odd(turn, row, call->given.len), ample(call), &first);
    in_other_rooms(call, &first, turn);
    if (thorough && !call->is_again)
        in_wrong_shapes(call, first.refusal);
    /* Where it was refused it is refused without room too, 3 being tried last. */
    size_t tight = call->work == A_LIST && !first.refusal ? listed(call, &first) : call->given.len;
    size_t answer = first.refusal ? 0 : answered(&first) + odd(odd_turn, NUMBER, 0);
    once(call, TAKEN, BEFORE, tight + odd(odd_turn, row, tight), answer, outcome);
    check_same(call, &first, outcome);
}

void check_slots(void)
{
    bool is_marked = true;
    for (int use = TAKEN; use < USES; use++)
        for (int side = BEHIND; side < SIDES; side++)
            is_marked = is_marked_else(&work_slots[use][side]) & is_marked_else(&answer_slots[use][side]) & is_marked;
    if (!is_marked)
        give_up("changed", "memory that wasn't lent");
}

void give_back_slots(void)
{
    for (int use = TAKEN; use < USES; use++)
        for (int side = BEHIND; side < SIDES; side++) {
            give_back(&work_slots[use][side]);
            give_back(&answer_slots[use][side]);
        }
}
