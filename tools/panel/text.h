/* A text that is asked about, and other bytes that a call only reads: how they are lent. */
#ifndef TEXT_H
#define TEXT_H

#include "words.h"

/* A short text is copied to where it is lent, and compared after its questions. A long one lies where nothing can be written. A huge
 * one does too, and each of its questions is put with ample room alone. */
enum size { SHORT, LONG, HUGE };

/* Room for the regions, or the items, of a huge text, which has few. */
enum { HUGE_ROOM = 64 };

struct text {
    struct placed bytes;
    enum size size;
};

struct text text_of(struct run run);
struct text text_of_word(struct text_word word);
/* Ends the request where a short text has changed. */
void check_text(const struct text *text);
void release(struct text *text);

/* Bytes, and texts, that lie where nothing can be written, until the request is answered. */
struct placed keep_sealed(struct run run);
struct text keep_text(struct text_word word);
void give_back_sealed(void);

#endif
