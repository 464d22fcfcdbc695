#include "block.h"

#include <inttypes.h>
#include <stdio.h>
#include <string.h>

struct questions questions;
struct asking asking;

/* Two sums of different multiplier and modulus, so that a pair of errors that hides in one shows in the other. */
struct sums {
    uint64_t asked, h1, h2;
};

struct block {
    struct question q;
    struct sums sums;
    /* How many answers had a value so far, and which of these, counted from 1, is made greater by one; 0: none. */
    uint64_t values, altered;
};

/* The answer at hand. It keeps its memory from one question to the next. */
static struct answer answer;

struct question find_question(const char *name, struct words *words)
{
    const struct form *const groups[] = {leaf_forms, scanner_forms, context_forms, sheet_forms, reason_forms, amend_forms};
    for (size_t i = 0; i < sizeof groups / sizeof *groups; i++)
        for (const struct form *form = groups[i]; form->name; form++)
            if (!strcmp(form->name, name)) {
                struct question q = {.form = form};
                form->read(words, &q);
                return q;
            }
    give_up("unknown", name);
}

void ask(const struct question *q, const struct text *text, size_t place, struct answer *a)
{
    asking = (struct asking){text, place};
    q->form->ask(q, text, place, a);
    questions.asked++;
    questions.refused += a->head == REFUSED;
}

static void feed(struct sums *sums, uint64_t x)
{
    sums->h1 = (sums->h1 * 65599 + x + 1) % 4294967291;
    sums->h2 = (sums->h2 * 69069 + x + 1) % 4294967279;
}

static void feed_stretch(void *to, const uint64_t *numbers, size_t len)
{
    struct sums *sums = to;
    for (size_t i = 0; i < len; i++)
        feed(sums, numbers[i]);
}

/* The numbers of an answer that may be the one to alter, on their way to the sums. */
struct altering {
    struct block *block;
    size_t fed;
    bool has_value;
};

static void feed_altered(void *to, const uint64_t *numbers, size_t len)
{
    struct altering *altering = to;
    struct block *block = altering->block;
    for (size_t i = 0; i < len; i++, altering->fed++) {
        bool is_first = altering->fed == 1 && altering->has_value;
        if (altering->fed == 0)
            altering->has_value = numbers[i] == 1;
        feed(&block->sums, numbers[i] + (is_first && ++block->values == block->altered));
    }
}

static void take(struct block *block, const struct text *text, bool has_place, size_t place)
{
    struct run run = text->bytes.run;
    block->sums.asked++;
    feed(&block->sums, run.len);
    for (size_t i = 0; i < run.len; i++)
        feed(&block->sums, run.at[i]);
    if (has_place)
        feed(&block->sums, place);
    if (block->altered)
        each_stretch(&answer, feed_altered, &(struct altering){.block = block});
    else
        each_stretch(&answer, feed_stretch, &block->sums);
}

static void ask_text(struct block *block, struct run run)
{
    const struct form *form = block->q.form;
    struct text text = text_of(run);
    size_t first = form->takes == A_PLACE ? form->first : 0;
    size_t last = form->takes == A_PLACE ? run.len + form->past : 0;
    for (size_t place = first; place <= last; place++) {
        ask(&block->q, &text, place, &answer);
        take(block, &text, form->takes == A_PLACE, place);
    }
    check_text(&text);
    release(&text);
    asking = (struct asking){0};
}

/* Which answer to alter, and the question. */
static struct block read_block(struct words *words)
{
    struct block block = {0};
    if (words->rest && !strncmp(words->rest, "- ", 2))
        next_word(words, "the answer to alter is missing");
    else
        block.altered = next_number(words, "no answer has this number", UINT64_MAX);
    block.q = find_question(next_word(words, "a request is missing"), words);
    if (block.q.form->takes == NOTHING)
        give_up("error", "this request takes no text");
    return block;
}

static void print_sums(const struct sums *sums)
{
    check_slots();
    printf("sums %" PRIu64 " %" PRIu64 " %" PRIu64 "\n", sums->asked, sums->h1, sums->h2);
}

/* What every form of block has behind its question: the alphabet, and room for a text of the length. */
struct texts {
    struct run alphabet, text;
};

static struct texts read_texts(struct words *words)
{
    struct run alphabet = next_bytes(words, "the alphabet is a list");
    size_t length = next_number(words, "the length is a number", UINT32_MAX);
    return (struct texts){alphabet, {keep(length), length}};
}

/* Text `i` of all texts of a length: the digits of `i`, lowest first, name its bytes. */
static struct run text_number(struct texts texts, uint64_t i)
{
    for (size_t k = 0; k < texts.text.len; k++) {
        texts.text.at[k] = texts.alphabet.at[i % texts.alphabet.len];
        i /= texts.alphabet.len;
    }
    return texts.text;
}

static uint64_t count_texts(struct texts texts)
{
    uint64_t all = 1;
    for (size_t k = 0; k < texts.text.len; k++) {
        if (texts.alphabet.len && all > UINT64_MAX / texts.alphabet.len)
            give_up("error", "too many texts");
        all *= texts.alphabet.len;
    }
    return all;
}

static void ask_numbered_texts(struct block *block, struct texts texts, uint64_t first, uint64_t times)
{
    for (uint64_t i = first; i < first + times; i++)
        ask_text(block, text_number(texts, i));
    print_sums(&block->sums);
}

void answer_block(struct words *words)
{
    struct block block = read_block(words);
    struct texts texts = read_texts(words);
    end_words(words);
    ask_numbered_texts(&block, texts, 0, count_texts(texts));
}

void answer_part(struct words *words)
{
    struct block block = read_block(words);
    struct texts texts = read_texts(words);
    uint64_t first = next_number(words, "the first text is a number", UINT64_MAX);
    uint64_t times = next_number(words, "the times are a number", UINT64_MAX);
    end_words(words);
    ask_numbered_texts(&block, texts, first, times);
}

void answer_drawn(struct words *words)
{
    struct block block = read_block(words);
    struct texts texts = read_texts(words);
    uint64_t at = next_number(words, "the seed is a number", UINT32_MAX);
    uint64_t times = next_number(words, "the times are a number", UINT32_MAX);
    end_words(words);
    if (!texts.alphabet.len)
        give_up("error", "the alphabet is empty");
    while (times--) {
        for (size_t k = 0; k < texts.text.len; k++) {
            at = (at * 1103515245 + 12345) % (UINT64_C(1) << 31);
            texts.text.at[k] = texts.alphabet.at[(at >> 16) % texts.alphabet.len];
        }
        ask_text(&block, texts.text);
    }
    print_sums(&block.sums);
}
