#include "question.h"

struct run bytes_of_numbers(struct numbers list, size_t first, size_t columns)
{
    size_t count = list.len / columns;
    struct run run = {keep(count * NUMBER), count * NUMBER};
    for (size_t i = 0; i < count; i++)
        rack_put_number(run.at + i * NUMBER, (uint32_t)list.at[first + i * columns]);
    return run;
}

struct placed column_of_numbers(struct numbers list, size_t first, size_t columns)
{
    return keep_sealed(bytes_of_numbers(list, first, columns));
}

struct placed column_of_bytes(struct numbers list, size_t first, size_t columns)
{
    size_t count = list.len / columns;
    struct run run = {keep(count), count};
    for (size_t i = 0; i < count; i++) {
        if (list.at[first + i * columns] > UINT8_MAX)
            give_up("error", "a rule's byte is over 255");
        run.at[i] = (uint8_t)list.at[first + i * columns];
    }
    return keep_sealed(run);
}

void read_regions(struct words *words, struct question *q)
{
    q->list = bytes_of_numbers(next_list(words, "regions are START:END", 2), 0, 1);
    q->count = (uint32_t)(q->list.len / REGION);
}

void read_fences(struct words *words, struct question *q)
{
    struct numbers list = next_list(words, "fence rules are BYTE:MIN", 2);
    q->fences = column_of_bytes(list, 0, 2);
    q->mins = column_of_bytes(list, 1, 2);
    q->rules = column_of_bytes(list, 0, 1);
}

void read_symmetric(struct words *words, struct question *q)
{
    struct numbers list = next_list(words, "symmetric rules are BYTE:COUNT", 2);
    q->symmetric = column_of_bytes(list, 0, 2);
    q->times = column_of_numbers(list, 1, 2);
}

void read_asymmetric(struct words *words, struct question *q)
{
    struct numbers list = next_list(words, "asymmetric rules are OPEN:CLOSE:COUNT", 3);
    q->openers = column_of_bytes(list, 0, 3);
    q->closers = column_of_bytes(list, 1, 3);
    q->counts = column_of_numbers(list, 2, 3);
}

void read_grammar(struct words *words, struct question *q)
{
    q->eol = next_byte(words, "the line end is a byte");
    q->escape = next_byte(words, "the escape is a byte");
    q->sep = next_byte(words, "the separator is a byte");
    q->tab = next_byte(words, "the tab is a byte");
    read_fences(words, q);
    read_symmetric(words, q);
    read_asymmetric(words, q);
}

void read_rules(struct call *call, const struct question *q)
{
    const struct placed *const columns[] = {&q->fences, &q->mins, &q->symmetric, &q->times, &q->openers, &q->closers, &q->counts};
    read_columns(call, columns, sizeof columns / sizeof *columns);
}

void check_count(const struct call *call, const struct outcome *listed)
{
    struct outcome got;
    run_call(call, &got);
    if (got.refusal != listed->refusal || (!got.refusal && got.values[0] != listed->values[0]))
        give_up("unlike", "another count than the list has rows, or another refusal");
}
