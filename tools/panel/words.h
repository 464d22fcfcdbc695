/* The words of a request, read in order. What they give is kept until the request is answered. */
#ifndef WORDS_H
#define WORDS_H

#include "lend.h"

/* The words of one line, parted by single blanks; what is left of them. */
struct words {
    char *rest;
};

/* A text in a request: so many times a byte, and then others. */
struct text_word {
    uint8_t byte;
    size_t times;
    struct run tail;
};

/* Ends the request with a line of this head, which says why. */
_Noreturn void give_up(const char *head, const char *why);

/* So many bytes, kept until the request is answered. */
void *keep(size_t size);
/* Gives back all that was kept. */
void forget(void);

char *next_word(struct words *words, const char *what);
void end_words(struct words *words);
uint64_t next_number(struct words *words, const char *what, uint64_t most);
uint8_t next_byte(struct words *words, const char *what);
/* A list whose entries have so many numbers each: the numbers in a row. */
struct numbers {
    uint64_t *at;
    size_t len;
};
struct numbers next_list(struct words *words, const char *what, size_t columns);
/* A list of bytes. */
struct run next_bytes(struct words *words, const char *what);
struct text_word next_text(struct words *words);
/* The text up to the next stroke of a word; `*rest` is then behind the stroke, or null. */
struct run next_part(char **rest);

#endif
