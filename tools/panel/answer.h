/* An answer: as the line that is printed, and as the numbers that a checksum takes in. */
#ifndef ANSWER_H
#define ANSWER_H

#include "lend.h"

enum head { SOME, NONE, ALL, STATE, REFUSED };
/* Numbers that are words of their own; a few that belong together; entries; all cells of an array; accepted bytes; a text. */
enum kind { EACH, TUPLE, LIST, CELLS, LENT, TEXT };

enum { MOST_WORDS = 16 };

struct word {
    enum kind kind;
    /* Where its numbers begin, how many there are, and how many of them make an entry. */
    size_t from, len, columns;
    /* The bytes of a text and of accepted bytes, which were asked and aren't answered. */
    struct run bytes;
};

struct answer {
    enum head head;
    uint32_t refusal;
    uint64_t *numbers;
    size_t len, room;
    struct word words[MOST_WORDS];
    size_t words_len;
};

void clear(struct answer *a, enum head head);
void refuse(struct answer *a, uint32_t refusal);
/* A new word; the numbers that are put from then on are its own. */
void begin(struct answer *a, enum kind kind, size_t columns);
/* Room for so many more numbers. */
void make_room(struct answer *a, size_t more);
static inline void put(struct answer *a, uint64_t n)
{
    if (a->len == a->room)
        make_room(a, 1);
    a->numbers[a->len++] = n;
    a->words[a->words_len - 1].len++;
}
/* A word of one number. */
void put_alone(struct answer *a, uint64_t n);
void put_asked(struct answer *a, enum kind kind, struct run bytes);

/* Hands the answer's numbers over in stretches, as the oracle has them: 0 for what it panics at, which is refusal 2 here. */
void each_stretch(const struct answer *a, void (*take)(void *to, const uint64_t *numbers, size_t len), void *to);
void print_answer(const struct answer *a);

#endif
