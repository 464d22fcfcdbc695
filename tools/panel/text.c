#include "text.h"

static struct placed sealed(uint8_t byte, size_t times, struct run tail)
{
    struct placed placed = {0};
    for (int side = BEHIND; side < SIDES; side++)
        placed.at[side] = lend_sealed(side, byte, times, tail);
    placed.run = placed.at[BEHIND];
    return placed;
}

static void unseal(struct placed *placed)
{
    for (int side = BEHIND; side < SIDES; side++)
        unlend_sealed(side, placed->at[side]);
    *placed = (struct placed){0};
}

struct text text_of(struct run run)
{
    static struct rooms rooms;
    if (run.len <= PAGE)
        return (struct text){place_run(&rooms, run), SHORT};
    return (struct text){sealed(0, 0, run), LONG};
}

struct text text_of_word(struct text_word word)
{
    if (!word.times)
        return text_of(word.tail);
    return (struct text){sealed(word.byte, word.times, word.tail), HUGE};
}

void check_text(const struct text *text)
{
    if (text->size == SHORT && !is_as_placed(&text->bytes))
        give_up("changed", "the text");
}

void release(struct text *text)
{
    if (text->size != SHORT)
        unseal(&text->bytes);
    *text = (struct text){0};
}

/* What is sealed, each piece pointing at the one before it. */
struct piece {
    struct piece *before;
    struct placed placed;
};
static struct piece *pieces;

static struct placed kept_sealed(uint8_t byte, size_t times, struct run tail)
{
    struct piece *piece = keep(sizeof *piece);
    *piece = (struct piece){pieces, sealed(byte, times, tail)};
    pieces = piece;
    return piece->placed;
}

struct placed keep_sealed(struct run run)
{
    return kept_sealed(0, 0, run);
}

struct text keep_text(struct text_word word)
{
    return (struct text){kept_sealed(word.byte, word.times, word.tail), word.times ? HUGE : LONG};
}

void give_back_sealed(void)
{
    for (; pieces; pieces = pieces->before)
        unseal(&pieces->placed);
}
