#define _DEFAULT_SOURCE
#include "words.h"

#include <stdlib.h>
#include <string.h>

/* What is kept, each piece pointing at the one before it. */
struct piece {
    struct piece *before;
    max_align_t bytes[];
};
static struct piece *kept;

void *keep(size_t size)
{
    struct piece *piece = malloc(sizeof *piece + size);
    if (!piece)
        give_up("error", "no memory");
    piece->before = kept;
    kept = piece;
    return piece->bytes;
}

void forget(void)
{
    while (kept) {
        struct piece *before = kept->before;
        free(kept);
        kept = before;
    }
}

char *next_word(struct words *words, const char *what)
{
    char *word = words->rest;
    if (!word || !*word || *word == ' ')
        give_up("error", what);
    char *blank = strchr(word, ' ');
    if (blank)
        *blank++ = 0;
    words->rest = blank;
    return word;
}

void end_words(struct words *words)
{
    if (words->rest)
        give_up("error", "surplus words");
}

/* The number that begins at `*at`, which moves behind it. */
static uint64_t digits(char **at, const char *what, uint64_t most)
{
    uint64_t n = 0;
    if (**at < '0' || **at > '9')
        give_up("error", what);
    for (; **at >= '0' && **at <= '9'; ++*at) {
        unsigned digit = (unsigned)(**at - '0');
        if (n > (most - digit) / 10)
            give_up("error", what);
        n = n * 10 + digit;
    }
    return n;
}

uint64_t next_number(struct words *words, const char *what, uint64_t most)
{
    char *word = next_word(words, what);
    uint64_t n = digits(&word, what, most);
    if (*word)
        give_up("error", what);
    return n;
}

uint8_t next_byte(struct words *words, const char *what)
{
    return (uint8_t)next_number(words, what, UINT8_MAX);
}

/* How many numbers a list has; `-` has none. */
static size_t count_numbers(const char *word)
{
    size_t n = 1;
    if (!strcmp(word, "-"))
        return 0;
    for (; *word; word++)
        n += *word == ',' || *word == ':';
    return n;
}

struct numbers next_list(struct words *words, const char *what, size_t columns)
{
    char *word = next_word(words, what);
    size_t len = count_numbers(word);
    struct numbers list = {keep(len * sizeof *list.at), len};
    for (size_t i = 0; i < len; i++) {
        list.at[i] = digits(&word, what, UINT32_MAX);
        char wanted = i + 1 == len ? 0 : (i + 1) % columns ? ':' : ',';
        if (*word++ != wanted)
            give_up("error", what);
    }
    if (len % columns)
        give_up("error", what);
    return list;
}

struct run next_bytes(struct words *words, const char *what)
{
    struct numbers list = next_list(words, what, 1);
    struct run run = {keep(list.len), list.len};
    for (size_t i = 0; i < list.len; i++) {
        if (list.at[i] > UINT8_MAX)
            give_up("error", what);
        run.at[i] = (uint8_t)list.at[i];
    }
    return run;
}

static uint8_t hex_digit(char c)
{
    const char *all = "0123456789abcdef", *at = c ? strchr(all, c) : NULL;
    if (!at)
        give_up("error", "a text has two hexadecimal digits for each byte");
    return (uint8_t)(at - all);
}

static struct run hexed(const char *word)
{
    size_t len = strcmp(word, "-") ? strlen(word) / 2 : 0;
    struct run run = {keep(len), len};
    if (strcmp(word, "-") && strlen(word) % 2)
        give_up("error", "a text has two hexadecimal digits for each byte");
    for (size_t i = 0; i < len; i++)
        run.at[i] = (uint8_t)(hex_digit(word[2 * i]) * 16 + hex_digit(word[2 * i + 1]));
    return run;
}

struct run next_part(char **rest)
{
    char *part = *rest, *stroke = strchr(part, '/');
    if (stroke)
        *stroke++ = 0;
    *rest = stroke;
    return hexed(part);
}

struct text_word next_text(struct words *words)
{
    char *word = next_word(words, "a text is missing");
    if (!strchr(word, '*'))
        return (struct text_word){0, 0, hexed(word)};
    const char *what = "a long text is BYTE*TIMES+TEXT";
    uint8_t byte = (uint8_t)digits(&word, what, UINT8_MAX);
    if (*word++ != '*')
        give_up("error", what);
    size_t times = digits(&word, what, UINT32_MAX + UINT64_C(1));
    if (*word++ != '+')
        give_up("error", what);
    return (struct text_word){byte, times, hexed(word)};
}
