#include "answer.h"

#include <inttypes.h>
#include <stdio.h>
#include <stdlib.h>

void clear(struct answer *a, enum head head)
{
    a->head = head;
    a->refusal = 0;
    a->len = a->words_len = 0;
}

void refuse(struct answer *a, uint32_t refusal)
{
    clear(a, REFUSED);
    a->refusal = refusal;
}

void begin(struct answer *a, enum kind kind, size_t columns)
{
    a->words[a->words_len++] = (struct word){kind, a->len, 0, columns, {0}};
}

void make_room(struct answer *a, size_t more)
{
    a->room = a->room * 2 + more + 256;
    a->numbers = realloc(a->numbers, a->room * sizeof *a->numbers);
    if (!a->numbers) {
        perror("panel: no memory");
        exit(2);
    }
}

void put_alone(struct answer *a, uint64_t n)
{
    begin(a, EACH, 1);
    put(a, n);
}

void put_asked(struct answer *a, enum kind kind, struct run bytes)
{
    begin(a, kind, 1);
    a->words[a->words_len - 1].bytes = bytes;
}

/* How many numbers of an array count: up to its last entry that isn't 0 throughout. */
static size_t used(const struct answer *a, const struct word *word)
{
    size_t len = word->len;
    while (len && !a->numbers[word->from + len - 1])
        len--;
    return (len + word->columns - 1) / word->columns * word->columns;
}

void each_stretch(const struct answer *a, void (*take)(void *to, const uint64_t *numbers, size_t len), void *to)
{
    uint64_t head[2] = {a->head == REFUSED ? 0 : a->head == NONE ? 2 : 1, a->refusal};
    take(to, head, a->head == REFUSED && a->refusal != 2 ? 2 : 1);
    for (size_t i = 0; i < a->words_len; i++) {
        const struct word *word = &a->words[i];
        size_t len = word->kind == CELLS ? used(a, word) : word->len;
        uint64_t entries = len / word->columns;
        if (word->kind == LIST || word->kind == CELLS)
            take(to, &entries, 1);
        if (len)
            take(to, a->numbers + word->from, len);
    }
}

static void print_numbers(const struct answer *a, const struct word *word)
{
    if (!word->len)
        putchar('-');
    for (size_t k = 0; k < word->len; k++) {
        if (k)
            putchar(word->kind == EACH ? ' ' : word->kind == TUPLE || k % word->columns ? ':' : ',');
        printf("%" PRIu64, a->numbers[word->from + k]);
    }
}

static void print_asked(const struct word *word)
{
    if (!word->bytes.len)
        putchar('-');
    for (size_t i = 0; i < word->bytes.len; i++) {
        if (word->kind == TEXT)
            printf("%02x", word->bytes.at[i]);
        else
            printf(i ? ",%u" : "%u", word->bytes.at[i]);
    }
}

void print_answer(const struct answer *a)
{
    static const char *const heads[] = {"some", "none", "all", "state", "refused"};
    fputs(heads[a->head], stdout);
    if (a->head == REFUSED)
        printf(" %" PRIu32, a->refusal);
    for (size_t i = 0; i < a->words_len; i++) {
        const struct word *word = &a->words[i];
        putchar(' ');
        if (word->kind == TEXT || word->kind == LENT)
            print_asked(word);
        else
            print_numbers(a, word);
    }
}
