/* An example of the panel, in C and in C++: the regions and the work sheet of a note; an edit, its regions amended, and the sheet anew.
 *
 *   cc -Iinclude host/example.c target/lib/native/librack.a && ./a.out
 *
 * host/example.py does the same from Python. */
#include <rack.h>

#include <stdio.h>
#include <stdlib.h>
#include <string.h>

enum { LONGEST = 200 };

/* A text, and room for its regions that is surely enough. */
struct note {
    uint8_t text[LONGEST];
    size_t len;
    uint8_t regions[RACK_REGIONS_MAX(LONGEST) * RACK_REGION];
    uint32_t count;
};

static const char front[] = "1. Oil the wiper shaft\n\n";
static const char capture[] = "~~~ pulses\n2. 0.38 mm\n~~~\n\n";
static const char replacement[] = "- Count `K7` again\n\n~~~ pulses\n2. 0.41 mm\n3. 0.40 mm\n~~~\n\n";
static const char back[] = "4) Bend the upper spring\n";

/* What is refused changes nothing, and its number says why. */
static void want_served(uint32_t refusal)
{
    if (refusal != RACK_SERVED) {
        fprintf(stderr, "refused: %u\n", (unsigned)refusal);
        exit(1);
    }
}

static void put_text(struct note *note, const char *middle)
{
    note->len = (size_t)snprintf((char *)note->text, sizeof note->text, "%s%s%s", front, middle, back);
}

static void build(struct note *note)
{
    want_served(rack_house_build(note->text, note->len, note->regions, sizeof note->regions, &note->count));
}

static void print_sheet(const struct note *note)
{
    uint8_t sheet[RACK_ITEMS_MAX(LONGEST) * RACK_ITEM];
    uint32_t items = 0, k;
    want_served(rack_house_sheet_listed(note->text, note->len, note->regions, sizeof note->regions, note->count, sheet, sizeof sheet, &items));
    printf("regions: %u, items: %u\n", (unsigned)note->count, (unsigned)items);
    for (k = 0; k < items; k++) {
        struct rack_item item = rack_item_at(sheet, k);
        if (item.kind == RACK_NUMBERED)
            printf("%u", (unsigned)item.number);
        printf("%c %.*s\n", (int)item.byte, (int)(item.end - item.start), (const char *)note->text + item.start);
    }
}

/* The new regions from the old ones: of the text only the replacement is scanned. Both cuts stand behind an empty line and in no region, and the
 * replacement ends in an empty line. */
static void amend(const struct note *old, struct note *edited)
{
    size_t first = strlen(front), second = first + strlen(capture);
    want_served(rack_house_amend(old->text, old->len, old->regions, sizeof old->regions, old->count, first, second,
                                 (const uint8_t *)replacement, strlen(replacement), edited->regions, sizeof edited->regions, &edited->count));
}

static int is_same(const struct note *one, const struct note *other)
{
    return one->count == other->count && !memcmp(one->regions, other->regions, one->count * (size_t)RACK_REGION);
}

int main(void)
{
    static struct note old, edited, fresh;
    put_text(&old, capture);
    build(&old);
    print_sheet(&old);
    put_text(&edited, replacement);
    amend(&old, &edited);
    put_text(&fresh, replacement);
    build(&fresh);
    puts(is_same(&edited, &fresh) ? "amended as built afresh" : "amended otherwise than built afresh");
    print_sheet(&edited);
    return 0;
}
