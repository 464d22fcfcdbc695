/* Runs of bytes that are lent to the panel, each flush against a page that nobody may touch. */
#ifndef LEND_H
#define LEND_H

#include <stdbool.h>
#include <stddef.h>
#include <stdint.h>
#include <string.h>

struct run {
    uint8_t *at;
    size_t len;
};

/* Comparing and copying by words that may overlap: for few bytes quicker than the library where an emulator runs it. */
static inline uint64_t word_at(const uint8_t *at)
{
    uint64_t word;
    memcpy(&word, at, sizeof word);
    return word;
}

static inline bool is_same(const uint8_t *a, const uint8_t *b, size_t len)
{
    enum { WORD = sizeof(uint64_t) };
    if (len > 8 * WORD)
        return !memcmp(a, b, len);
    if (len < WORD) {
        while (len && a[len - 1] == b[len - 1])
            len--;
        return !len;
    }
    uint64_t other = word_at(a + len - WORD) ^ word_at(b + len - WORD);
    for (size_t i = 0; i + 2 * WORD < len; i += 2 * WORD)
        other |= (word_at(a + i) ^ word_at(b + i)) | (word_at(a + i + WORD) ^ word_at(b + i + WORD));
    if (len > WORD)
        other |= word_at(a + (len - 1) / WORD * WORD - WORD) ^ word_at(b + (len - 1) / WORD * WORD - WORD);
    return !other;
}

static inline void copy_bytes(uint8_t *to, const uint8_t *from, size_t len)
{
    enum { WORD = sizeof(uint64_t) };
    if (len > 8 * WORD) {
        memcpy(to, from, len);
    } else if (len >= WORD) {
        for (size_t i = 0; i + WORD < len; i += WORD)
            memcpy(to + i, from + i, WORD);
        memcpy(to + len - WORD, from + len - WORD, WORD);
    } else {
        for (size_t i = 0; i < len; i++)
            to[i] = from[i];
    }
}

/* Which of its two inaccessible pages a run touches. */
enum side { BEHIND, BEFORE, SIDES };

enum { PAGE = 4096 };

/* Bytes that are only read, and where they lie to be lent: on a side there may be more than the run itself, which then stands behind
 * the run's own bytes too. */
struct placed {
    struct run run;
    struct run at[SIDES];
};

/* ---- runs that are written: room full of marks, so that what is written shows */

/* Room between two inaccessible pages; it grows as it must. All of it has marks, but for the part that was written last. */
struct slot {
    uint8_t *body;
    size_t size;
    struct run written;
    /* Whether marks were missing when the room was renewed. */
    bool is_spoilt;
};

/* How many bytes behind a run are looked at after each call, where there is room behind it. */
enum { BESIDE = 16 };

static inline struct run flush_run(const struct slot *slot, enum side side, size_t len)
{
    return (struct run){side == BEFORE ? slot->body : slot->body + slot->size - len, len};
}

/* Larger room, full of marks. */
void renew(struct slot *slot, size_t len);
void mark(struct slot *slot, struct run run);
bool is_marked(const struct slot *slot, struct run run);

/* A run of so many bytes, flush against the page on that side, with marks in it and beside it. */
static inline struct run lend_marked(struct slot *slot, enum side side, size_t len)
{
    if (slot->size < len + BESIDE)
        renew(slot, len);
    mark(slot, slot->written);
    slot->written.len = 0;
    return flush_run(slot, side, len);
}

/* The same for a run that is written whole before the call: there are marks beside it alone. */
static inline struct run lend_written(struct slot *slot, enum side side, size_t len)
{
    struct run run = flush_run(slot, side, len);
    if (slot->size < len + BESIDE || slot->written.at != run.at || slot->written.len != len)
        slot->written = run = lend_marked(slot, side, len);
    return run;
}

/* So many bytes of a run, from its start on, are no longer marks, which is to be put right before the slot is lent again. */
static inline void is_written(struct slot *slot, struct run run, size_t len)
{
    slot->written = (struct run){run.at, len};
}

/* Whether all of a run from `from` on has its marks, and what stands behind the run where there is room. */
static inline bool is_marked_from(const struct slot *slot, struct run run, size_t from)
{
    size_t more = run.at == slot->body ? BESIDE : 0;
    return is_marked(slot, (struct run){run.at + from, run.len - from + more});
}

/* Whether the whole slot has had its marks since the last time, but for what was written. A large slot is given back. */
bool is_marked_else(struct slot *slot);
void give_back(struct slot *slot);

/* ---- runs that are only read */

/* Two rooms for runs that change often: a run is copied to both, and afterwards compared. */
struct rooms {
    struct slot side[SIDES];
};
struct placed place_run(struct rooms *rooms, struct run run);
/* The same with other lengths on the two sides. */
struct placed place_longer(struct rooms *rooms, struct run run, const size_t lens[SIDES]);
bool is_as_placed(const struct placed *placed);

/* A run in memory of its own that can only be read: so many times a byte, then the tail. Zero bytes take no memory. */
struct run lend_sealed(enum side side, uint8_t byte, size_t times, struct run tail);

/* Gives a sealed run back; one that was never lent is nothing to give. */
void unlend_sealed(enum side side, struct run run);

#endif
