#include "why.h"

#include "say.h"

#include <inttypes.h>
#include <stdlib.h>

/* The note was built, and its list is in order: a refusal would be the panel's fault. */
static void want_served(const struct note *note, uint32_t refusal)
{
    if (refusal) {
        say_refused(note, refusal);
        exit(2);
    }
}

/* What hides an item begins on an earlier line, since before a marker or delimiter stand blanks and digits alone, and these begin no region. So
 * a line is explained by its own bytes and one region; an explanation of the whole note would walk it up to the line. */
uint32_t reason_of(const struct note *note, size_t at, struct rack_region region)
{
    uint8_t row[RACK_REGION];
    size_t next = next_line(note, at);
    bool reaches = region.start < at && at < region.end;
    rack_put_number(row, 0);
    rack_put_number(row + RACK_NUMBER, (uint32_t)((region.end < next ? region.end : next) - at));
    uint32_t why, number;
    want_served(note, rack_house_explain(note->text + at, next - at, row, sizeof row, reaches, 1, &why, &number, &region));
    return why;
}

/* The region that was told last, and its first and last line. */
struct hider {
    struct counter counter;
    bool is_told;
    struct rack_region region;
    uint64_t first, last;
};

/* A region that hides a line, by the line and the column of its first byte, both counted from 1, and that line quoted. */
static void print_hider(struct hider *hider, struct rack_region region)
{
    const struct note *note = hider->counter.note;
    size_t begins = line_start(note, region.start);
    if (!hider->is_told || hider->region.start != region.start) {
        hider->is_told = true;
        hider->region = region;
        hider->first = line_at(&hider->counter, region.start);
        hider->last = line_at(&hider->counter, region.end - 1);
    }
    printf("hidden by what begins at line %" PRIu64 ", column %zu", hider->first, region.start - begins + 1);
    if (hider->last > hider->first)
        printf(" and ends on line %" PRIu64, hider->last);
    fputs(": ", stdout);
    spell(stdout, note->text + begins, line_end(note, begins) - begins);
    putchar('\n');
}

static void print_reason(struct hider *hider, uint64_t line, uint32_t why, struct rack_region region)
{
    static const char *const whys[] = {
        "it is on the sheet",
        "the note has no such line",
        "no marker (- * +) and no number leads it",
        "its number has ten digits or more",
        "no full stop or closing bracket follows its number",
        "no blank or tab follows its marker, full stop or bracket",
    };
    printf("%6" PRIu64 "  ", line);
    if (why == RACK_HIDDEN)
        print_hider(hider, region);
    else
        puts(whys[why]);
}

void print_why(const struct note *note, uint64_t line)
{
    struct hider hider = {.counter = {.note = note}};
    struct rack_region region = {0, 0};
    uint32_t why, number;
    want_served(note, rack_house_explain(note->text, note->len, note->regions.at, note->regions.len, note->regions.count, line,
                                         &why, &number, &region));
    print_reason(&hider, line, why, region);
}

void print_every_why(const struct note *note)
{
    struct hider hider = {.counter = {.note = note}};
    struct rack_region region = {0, 0};
    uint64_t line = 1;
    uint32_t k = 0;
    for (size_t at = 0; at < note->len; at = next_line(note, at), line++) {
        while (k < note->regions.count && region.end <= at)
            region = rack_region_at(note->regions.at, k++);
        uint32_t why = reason_of(note, at, region);
        if (why != RACK_ON_SHEET && why != RACK_NO_LEAD)
            print_reason(&hider, line, why, region);
    }
}
