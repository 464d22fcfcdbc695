/* Answers the oracle's questions with the panel's entries: one request on each line of standard input, one line of answer on standard
 * output, in the oracle's words (tools/oracle/README.md). Answers that the oracle hasn't:
 *
 *   refused N        the entry refused by this number
 *   changed WHY      a byte was written that wasn't to be
 *   unlike WHY       two ways of asking give different answers, or an answer has another form than the entry's
 *   fault WHY        the entry touched memory that wasn't lent
 *   unknown NAME     the panel has no entry for this question
 *   counts …         to `counts`: questions asked, questions refused, and for each entry that was called NAME:CALLS:REFUSED
 *
 * Behind `changed`, `unlike` and `fault` stand the entry that was called last, and the text and the place that were asked about. */
#define _DEFAULT_SOURCE
#include "block.h"

#include <inttypes.h>
#include <setjmp.h>
#include <signal.h>
#include <stdio.h>
#include <stdlib.h>
#include <string.h>

static sigjmp_buf next_request;

/* The entry, the text and the place that were asked about. */
static void print_asking(void)
{
    if (asking.text)
        printf(" (%s)", entered ? entered->name : "no entry");
    struct run run = asking.text ? asking.text->bytes.run : (struct run){0};
    if (!asking.text || asking.text->size == HUGE)
        return;
    printf(": %s", run.len ? "" : "-");
    for (size_t i = 0; i < run.len; i++)
        printf("%02x", run.at[i]);
    printf(" %zu", asking.place);
}

static bool is_giving_up;

_Noreturn void give_up(const char *head, const char *why)
{
    is_giving_up = true;
    printf("%s %s", head, why);
    print_asking();
    putchar('\n');
    siglongjmp(next_request, 1);
}

/* The fault is the entry's, which is amid nothing that printing needs. */
static void on_fault(int signal)
{
    (void)signal;
    if (is_giving_up)
        _Exit(2);
    give_up("fault", "memory that isn't lent");
}

static void print_stretch(void *to, const uint64_t *numbers, size_t len)
{
    (void)to;
    for (size_t i = 0; i < len; i++)
        printf(" %" PRIu64, numbers[i]);
}

/* The answer to one question, in full or as numbers. */
static void answer_one(const char *name, struct words *words, bool as_numbers)
{
    static struct answer a;
    struct question q = find_question(name, words);
    struct text text = text_of((struct run){0});
    size_t place = 0;
    if (q.form->takes != NOTHING)
        text = text_of_word(next_text(words));
    if (q.form->takes == A_PLACE)
        place = next_number(words, "a place is missing", SIZE_MAX);
    end_words(words);
    thorough = true;
    ask(&q, &text, place, &a);
    check_text(&text);
    check_slots();
    if (as_numbers) {
        fputs("numbers", stdout);
        each_stretch(&a, print_stretch, NULL);
    } else {
        print_answer(&a);
    }
    putchar('\n');
    release(&text);
}

static void print_counts(void)
{
    printf("counts %" PRIu64 " %" PRIu64, questions.asked, questions.refused);
    for (const struct tally *tally = tallies; tally->name; tally++)
        printf(" %s:%" PRIu64 ":%" PRIu64, tally->name, tally->calls, tally->refused);
    putchar('\n');
}

static void respond(struct words words)
{
    const char *name = next_word(&words, "a request is missing");
    if (!strcmp(name, "block"))
        answer_block(&words);
    else if (!strcmp(name, "part"))
        answer_part(&words);
    else if (!strcmp(name, "drawn"))
        answer_drawn(&words);
    else if (!strcmp(name, "numbers"))
        answer_one(next_word(&words, "a request is missing"), &words, true);
    else if (!strcmp(name, "counts"))
        print_counts();
    else
        answer_one(name, &words, false);
}

int main(void)
{
    static char *line;
    static size_t room;
    struct sigaction action = {.sa_handler = on_fault, .sa_flags = SA_NODEFER};
    sigaction(SIGSEGV, &action, NULL);
    sigaction(SIGBUS, &action, NULL);
    for (;;) {
        ssize_t len = getline(&line, &room, stdin);
        if (len <= 0)
            return 0;
        line[len - (line[len - 1] == '\n')] = 0;
        asking = (struct asking){0};
        thorough = false;
        is_giving_up = false;
        if (!sigsetjmp(next_request, 1))
            respond((struct words){line});
        else
            give_back_slots();
        give_back_sealed();
        forget();
        fflush(stdout);
    }
}
