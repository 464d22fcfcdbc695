#define _DEFAULT_SOURCE
#include "lend.h"

#include <stdio.h>
#include <stdlib.h>
#include <sys/mman.h>

/* From which size on a slot is given back. */
enum { LARGE = 16 * PAGE };

static void fail(const char *what)
{
    perror(what);
    exit(2);
}

/* So many bytes, which are whole pages, between two pages without access. */
static uint8_t *mapped(size_t size)
{
    uint8_t *all = mmap(NULL, size + 2 * PAGE, PROT_NONE, MAP_PRIVATE | MAP_ANONYMOUS | MAP_NORESERVE, -1, 0);
    if (all == MAP_FAILED)
        fail("panel: no memory");
    if (mprotect(all + PAGE, size, PROT_READ | PROT_WRITE))
        fail("panel: no access");
    return all + PAGE;
}

static void unmapped(uint8_t *body, size_t size)
{
    munmap(body - PAGE, size + 2 * PAGE);
}

static size_t paged(size_t len)
{
    return (len + PAGE - 1) / PAGE * PAGE;
}

/* A page of marks, which repeat from page to page: no two near bytes are alike, and few are 0. */
static uint8_t marks[PAGE];

/* Goes over a run page by page. Writes the marks, or tells whether they stand. */
static bool over(const struct slot *slot, struct run run, bool write)
{
    while (run.len) {
        size_t from = (size_t)(run.at - slot->body) % PAGE;
        size_t len = PAGE - from < run.len ? PAGE - from : run.len;
        if (write)
            copy_bytes(run.at, marks + from, len);
        else if (!is_same(run.at, marks + from, len))
            return false;
        run.at += len;
        run.len -= len;
    }
    return true;
}

void mark(struct slot *slot, struct run run)
{
    over(slot, run, true);
}

bool is_marked(const struct slot *slot, struct run run)
{
    return over(slot, run, false);
}

/* Room for a run of so many bytes and what stands next to it. */
static void fit(struct slot *slot, size_t len)
{
    if (slot->body)
        unmapped(slot->body, slot->size);
    slot->size = paged(len + BESIDE);
    slot->body = mapped(slot->size);
    slot->written = (struct run){0};
}

/* Whether there are marks everywhere but in what was written last. */
static bool is_marked_about(const struct slot *slot)
{
    const struct run written = slot->written;
    if (!written.len)
        return is_marked(slot, (struct run){slot->body, slot->size});
    uint8_t *behind = written.at + written.len;
    return is_marked(slot, (struct run){slot->body, (size_t)(written.at - slot->body)}) &&
           is_marked(slot, (struct run){behind, (size_t)(slot->body + slot->size - behind)});
}

void renew(struct slot *slot, size_t len)
{
    if (!marks[1])
        for (size_t i = 0; i < PAGE; i++)
            marks[i] = (uint8_t)(i * 151 + i / 256 + 90);
    slot->is_spoilt |= slot->body && !is_marked_about(slot);
    fit(slot, len);
    mark(slot, (struct run){slot->body, slot->size});
}

bool is_marked_else(struct slot *slot)
{
    bool is_good = !slot->is_spoilt && (!slot->body || is_marked_about(slot));
    if (slot->size >= LARGE)
        give_back(slot);
    return is_good;
}

void give_back(struct slot *slot)
{
    if (slot->body)
        unmapped(slot->body, slot->size);
    *slot = (struct slot){0};
}

struct placed place_longer(struct rooms *rooms, struct run run, const size_t lens[SIDES])
{
    struct placed placed = {.run = run};
    for (int side = BEHIND; side < SIDES; side++) {
        struct slot *slot = &rooms->side[side];
        if (slot->size < lens[side] + BESIDE)
            fit(slot, lens[side]);
        placed.at[side] = flush_run(slot, side, lens[side]);
        copy_bytes(placed.at[side].at, run.at, lens[side]);
    }
    return placed;
}

struct placed place_run(struct rooms *rooms, struct run run)
{
    return place_longer(rooms, run, (size_t[SIDES]){run.len, run.len});
}

bool is_as_placed(const struct placed *placed)
{
    bool is_same_still = true;
    for (int side = BEHIND; side < SIDES; side++)
        is_same_still = is_same_still && is_same(placed->run.at, placed->at[side].at, placed->at[side].len);
    return is_same_still;
}

struct run lend_sealed(enum side side, uint8_t byte, size_t times, struct run tail)
{
    size_t len = times + tail.len, size = paged(len + 1);
    uint8_t *body = mapped(size), *at = side == BEFORE ? body : body + size - len;
    if (byte) /* fresh memory is zero as it is */
        memset(at, byte, times);
    if (tail.len)
        memcpy(at + times, tail.at, tail.len);
    if (mprotect(body, size, PROT_READ))
        fail("panel: no access");
    return (struct run){at, len};
}

void unlend_sealed(enum side side, struct run run)
{
    size_t size = paged(run.len + 1);
    if (run.at)
        unmapped(side == BEFORE ? run.at : run.at + run.len - size, size);
}
