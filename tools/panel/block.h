/* One question asked of many texts, with checksums over questions and answers: the oracle's `block`, `part` and `drawn`. */
#ifndef BLOCK_H
#define BLOCK_H

#include "question.h"

/* How many questions were asked, and how many of them were refused. */
extern struct questions {
    uint64_t asked, refused;
} questions;

/* The question of this name, its parameters read. */
struct question find_question(const char *name, struct words *words);

/* Asks one question, and counts it. */
void ask(const struct question *q, const struct text *text, size_t place, struct answer *a);

void answer_block(struct words *words);
void answer_part(struct words *words);
void answer_drawn(struct words *words);

/* What is asked about now, to be told where an answer can't be given. */
extern struct asking {
    const struct text *text;
    size_t place;
} asking;

#endif
