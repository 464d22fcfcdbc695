#include "list.h"

#include <stdlib.h>

struct run copied(struct run *room, struct run first, size_t len)
{
    if (room->len < len)
        *room = (struct run){realloc(room->at, len), len};
    if (len && !room->at)
        give_up("error", "no memory");
    if (first.len)
        memcpy(room->at, first.at, first.len);
    return (struct run){room->at, len};
}

/* The row behind all regions, and marks in the place of a further row. */
static void put_more(struct run all, size_t from, size_t length, bool hides)
{
    uint32_t end = from ? rack_number(all.at + from - NUMBER) : 0;
    bool has_rest = hides && end < length && length <= UINT32_MAX;
    rack_put_number(all.at + from, has_rest ? end : 0);
    rack_put_number(all.at + from + NUMBER, has_rest ? (uint32_t)length : UINT32_MAX);
    memset(all.at + from + REGION, 1, all.len - from - REGION);
}

struct placed lent_list(struct run regions, uint32_t count, size_t length)
{
    static struct rooms rooms;
    static struct run room;
    static unsigned turn;
    size_t odd = ++turn % REGION;
    struct run all = copied(&room, regions, regions.len + 2 * REGION);
    put_more(all, regions.len, length, turn / REGION % 2);
    size_t more = count <= regions.len / REGION ? REGION : 0;
    return place_longer(&rooms, (struct run){all.at, regions.len}, (size_t[SIDES]){regions.len + odd, regions.len + more + odd});
}

void check_list(const struct placed *list)
{
    if (!is_as_placed(list))
        give_up("changed", "a list that is read");
}

void read_list(struct call *call, const struct placed *list, uint32_t count)
{
    call->has_list = true;
    call->list = call->reads;
    call->count = count;
    call->read[call->reads++] = list;
}
