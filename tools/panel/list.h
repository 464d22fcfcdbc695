/* Region lists that an entry reads. */
#ifndef LIST_H
#define LIST_H

#include "question.h"

/* So many bytes in a room that grows, the first of them these; they stay until the next time. */
struct run copied(struct run *room, struct run first, size_t len);

/* Regions of a text of so many bytes as they are lent, of which so many are stated: the first time with a part of a row behind them, the
 * second time with a row more, where the count is within the room. By turns the row hides all to the text's end, or is out of order and
 * covers everything. They stay until the next such call. */
struct placed lent_list(struct run regions, uint32_t count, size_t length);

/* Ends the request where such a list has changed. */
void check_list(const struct placed *list);

/* The call reads this list next. */
void read_list(struct call *call, const struct placed *list, uint32_t count);

#endif
