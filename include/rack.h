/* The panel: entries for a host in C (C99 and on, C++98 with <stdint.h> and on), on numbers and byte runs alone.
 *
 * A run is a pointer and then its length in bytes. Lent runs must not overlap: neither two that are written, nor one that is
 * written and one that is read. An empty run may have any pointer but a null one; a null pointer, even with length 0, is outside of
 * what is proved. The inline forms at the end of this file take null pointers with length 0. The entries keep no pointer, and have no
 * memory of their own: threads may call them at once.
 *
 * Each number of a list, of a count column, of a state and of an answer is four bytes, low byte first (`rack_number`,
 * `rack_put_number`).
 *
 * An entry returns 0, or the number of its refusal (`enum rack_refusal`; `rack_json_read` with a place beside it). On 0 it has
 * written to the answer run how many values there are, and then the values, four bytes each; bytes behind them are as they were.
 * RACK_ANSWER(n) bytes are enough for n values; a run that is longer does no harm. On a refusal no byte of any lent run is changed.
 * The refusals of an entry are tried in the order in which its comment names them; 3 for an answer run that is too short is always
 * the last.
 *
 * What each entry promises is proved: docs/PROMISES.md. */
#ifndef RACK_H
#define RACK_H

#include <stddef.h>
#include <stdint.h>

/* The second number counts the change requests that have landed, the third what was mended since. */
#define RACK_VERSION_MAJOR 0
#define RACK_VERSION_MINOR 4
#define RACK_VERSION_PATCH 0
#define RACK_VERSION "0.4.0"

enum rack_refusal {
    RACK_SERVED = 0,
    RACK_TEXT_TOO_LONG = 1,     /* a text, a replacement or an edited text has more than 4,294,967,295 bytes */
    RACK_PLACE_OR_STATE = 2,    /* a place is past the text; or a state run is not of the scanner's length, a cell that is a byte's is
                                   over 255, a flag's over 1, or the state is none that the scanner takes */
    RACK_NO_ROOM = 3,           /* too little room, in the list or in the answer run */
    RACK_CUTS_OUT_OF_ORDER = 4, /* the first cut is after the second, or the second is past the text */
    RACK_LIST_MISSHAPEN = 5,    /* the list's stated count is over its room; but for the cursor also: its regions are unsorted,
                                   overlapping, empty or past the text */
    RACK_COLUMNS_DIFFER = 6,    /* a rule's columns differ in length */
    RACK_NOT_AT_JOINT = 7,      /* a cut is not at a joint (the second may be the text's end) */
    RACK_REPLACEMENT_OPEN = 8,  /* old text follows a replacement that isn't empty, and that doesn't end in two line ends or has,
                                   built alone, a region reaching its end */
    RACK_LINE_END_MARK = 9,     /* the escape, a symmetric byte or an asymmetric opener is the line-end byte (amendment only) */
    RACK_NOT_RECORDS = 10       /* a file is not of the form that records have; the place tells where (rack_json_read only) */
};

/* Sizes in bytes: of a number, a region in a list, an item of a work sheet, the scanners' states. */
enum {
    RACK_NUMBER = 4,
    RACK_REGION = 8,
    RACK_ITEM = 20,
    RACK_FENCE_STATE = 24,
    RACK_MARKER_STATE = 36,
    RACK_NUMBERED_STATE = 36,
    RACK_CONT_STATE = 420
};

/* The length of an answer run for n values, and the longest answer of each kind. */
#define RACK_ANSWER(n) (4 * ((size_t)(n) + 1))
#define RACK_ONE_ANSWER RACK_ANSWER(1)      /* leaves, building, sheets, counts, the amendment */
#define RACK_PROBE_ANSWER RACK_ANSWER(5)    /* rack_probe_matcher */
#define RACK_SEARCH_ANSWER RACK_ANSWER(12)  /* rack_search_bytes */
#define RACK_COVER_ANSWER RACK_ANSWER(2)    /* rack_covering_end */
#define RACK_SPAN_ANSWER RACK_ANSWER(2)     /* rack_fence_step, rack_cont_step */
#define RACK_MARKER_ANSWER RACK_ANSWER(3)   /* rack_marker_step */
#define RACK_NUMBERED_ANSWER RACK_ANSWER(4) /* rack_numbered_step */
#define RACK_EXPLAIN_ANSWER RACK_ANSWER(4)  /* rack_explain */
#define RACK_JSON_ANSWER RACK_ANSWER(2)     /* rack_json_write; rack_json_read has RACK_ONE_ANSWER */

/* The longest text, and room that is always enough, in regions or items, for a text of `len` bytes: there are at most half as many
 * regions as bytes and one more (law `regions-few`), and at most as many items as bytes (law `left-few`). An amended list has at most
 * the old list's regions and the replacement's own. A list's file of JSON has at most 38 bytes for each region and two more (law
 * `layout-few`), and any such file at least 20 for each region (law `records-few`). */
#define RACK_TEXT_MAX ((size_t)4294967295u)
#define RACK_REGIONS_MAX(len) ((size_t)(len) / 2 + 1)
#define RACK_ITEMS_MAX(len) ((size_t)(len))
#define RACK_AMENDED_MAX(count, replacement_len) ((size_t)(count) + RACK_REGIONS_MAX(replacement_len))
#define RACK_JSON_MAX(count) ((size_t)(count) * 38 + 2)
#define RACK_RECORDS_MAX(file_len) ((size_t)(file_len) / 20 + 1)

/* The kinds of an item, and the reasons of an explanation. */
enum { RACK_MARKER = 0, RACK_NUMBERED = 1 };
enum rack_reason {
    RACK_ON_SHEET = 0,
    RACK_NO_LINE = 1,
    RACK_NO_LEAD = 2,
    RACK_TEN_DIGITS = 3,
    RACK_NO_DELIMITER = 4,
    RACK_NO_BLANK = 5,
    RACK_HIDDEN = 6
};

#ifdef __cplusplus
extern "C" {
#endif

/* ---- leaves */

/* The first line end at or after a place, else the text's length. One value. Refusals 1, 2, 3. */
uint32_t rack_find_line_end(const uint8_t *text, size_t text_len, size_t from, uint8_t eol,
                            uint8_t *answer, size_t answer_len);

/* How many escape bytes stand just before a place. One value. Refusals 1, 2, 3. */
uint32_t rack_count_escape(const uint8_t *text, size_t text_len, size_t pos, uint8_t escape,
                           uint8_t *answer, size_t answer_len);

/* The next needle at or after a place within the paragraph, where the fence rules have their bytes and minimums in two columns. One
 * value, or none where there is no needle. Refusals 1, 6, 2, 3. */
uint32_t rack_next_in_paragraph(const uint8_t *text, size_t text_len, size_t from, uint8_t needle, uint8_t eol,
                                const uint8_t *fences, size_t fences_len, const uint8_t *mins, size_t mins_len,
                                uint8_t *answer, size_t answer_len);

/* What a streaming search needs of a set of accepted bytes, given as a run of those bytes. Five values: the streaming flag (1 or 0),
 * the count, and three needles. Up to three different bytes stream: the needles are these in rising order, unused ones 0. With more
 * the flag and the count are 0, and the needles are the three least bytes. Refusal 3. */
uint32_t rack_probe_matcher(const uint8_t *accepted, size_t accepted_len,
                            uint8_t *answer, size_t answer_len);

/* The bytes that a builder searches for. Twelve values: how many there are, and the eleven cells, those behind the last one 0.
 * Refusal 3. */
uint32_t rack_search_bytes(const uint8_t *fences, size_t fences_len, const uint8_t *symmetric, size_t symmetric_len,
                           const uint8_t *openers, size_t openers_len,
                           uint8_t *answer, size_t answer_len);

/* ---- the cursor */

/* One query of the cursor over a list of `count` regions, eight bytes each: the index to go on from, and behind it the end of the
 * region that the place is inside, if there is one. One or two values. Refusals 5, 3. */
uint32_t rack_covering_end(const uint8_t *list, size_t list_len, uint32_t count, uint32_t index, size_t place,
                           uint8_t *answer, size_t answer_len);

/* ---- scanners: `new` writes a fresh state to a run of exactly the state's length (else 2) and answers nothing; a step reads the state
 * and on success writes the next one over it. Where the text has no more, a step answers no value, which needs four bytes of the
 * answer run; where it has, it needs four more for each value. A state that was made by hand is taken where its position isn't past
 * the text, its cells keep to their limits (a byte's 255, a flag's 1) and, for frames, what is said there holds too. */

/* A fresh fence scanner: 24 bytes, the cells byte, min, eol, sep, tab, pos. Refusal 2. */
uint32_t rack_fence_new(uint8_t byte, uint8_t min, uint8_t eol, uint8_t sep, uint8_t tab,
                        uint8_t *state, size_t state_len);

/* The next fence: its start and end, or no value. Refusals 1, 2, 3. */
uint32_t rack_fence_step(const uint8_t *text, size_t text_len, uint8_t *state, size_t state_len,
                         uint8_t *answer, size_t answer_len);

/* A fresh marker scanner: 36 bytes, the cells eol, sep, tab, pos, three needles, their count, the streaming flag. Refusal 2. */
uint32_t rack_marker_new(uint8_t eol, uint8_t sep, uint8_t tab, const uint8_t *accepted, size_t accepted_len,
                         uint8_t *state, size_t state_len);

/* The next marker item: its content's start and end, and the marker byte; or no value. A needle count over 3 acts as 3. Refusals 1, 2,
 * 3. */
uint32_t rack_marker_step(const uint8_t *text, size_t text_len, const uint8_t *accepted, size_t accepted_len,
                          uint8_t *state, size_t state_len, uint8_t *answer, size_t answer_len);

/* A fresh numbered scanner: 36 bytes, the cells as a marker scanner's. Refusal 2. */
uint32_t rack_numbered_new(uint8_t eol, uint8_t sep, uint8_t tab, const uint8_t *accepted, size_t accepted_len,
                           uint8_t *state, size_t state_len);

/* The next numbered item: its content's start and end, the delimiter byte, and the number; or no value. Refusals 1, 2, 3. */
uint32_t rack_numbered_step(const uint8_t *text, size_t text_len, const uint8_t *accepted, size_t accepted_len,
                            uint8_t *state, size_t state_len, uint8_t *answer, size_t answer_len);

/* A fresh scanner of continuation frames: 420 bytes, the cells byte, eol, sep, tab, cap, pos, 32 starts of open frames, how many are
 * open, 32 pending frames (a start and an end each), how many are pending, the pending index. The cap is `nest`, but never over 32;
 * with 0 no frame opens. A step refuses with 2 a cap, an open or a pending count over 32, and a pending index over the pending count.
 * Refusal 2. */
uint32_t rack_cont_new(uint8_t byte, uint8_t eol, uint8_t sep, uint8_t tab, size_t nest,
                       uint8_t *state, size_t state_len);

/* The next frame: its start and end, or no value. Refusals 1, 2, 3. */
uint32_t rack_cont_step(const uint8_t *text, size_t text_len, uint8_t *state, size_t state_len,
                        uint8_t *answer, size_t answer_len);

/* ---- building */

/* The opaque regions of a text by rules in columns: fence bytes and minimums; symmetric bytes and counts; asymmetric openers, closers
 * and counts. A count column has four bytes for each byte of its byte column. Region k has its start at byte 8k of `out` and its
 * exclusive end at byte 8k + 4; bytes behind the last region are as they were. One value: how many there are. Refusals 1, 6, 3. */
uint32_t rack_build(const uint8_t *text, size_t text_len, uint8_t eol, uint8_t escape, uint8_t sep, uint8_t tab,
                    const uint8_t *fences, size_t fences_len, const uint8_t *mins, size_t mins_len,
                    const uint8_t *symmetric, size_t symmetric_len, const uint8_t *times, size_t times_len,
                    const uint8_t *openers, size_t openers_len, const uint8_t *closers, size_t closers_len,
                    const uint8_t *counts, size_t counts_len,
                    uint8_t *out, size_t out_len, uint8_t *answer, size_t answer_len);

/* How many regions `rack_build` would write: the room that is needed, without a list. One value. Refusals 1, 6, 3. */
uint32_t rack_build_count(const uint8_t *text, size_t text_len, uint8_t eol, uint8_t escape, uint8_t sep, uint8_t tab,
                          const uint8_t *fences, size_t fences_len, const uint8_t *mins, size_t mins_len,
                          const uint8_t *symmetric, size_t symmetric_len, const uint8_t *times, size_t times_len,
                          const uint8_t *openers, size_t openers_len, const uint8_t *closers, size_t closers_len,
                          const uint8_t *counts, size_t counts_len,
                          uint8_t *answer, size_t answer_len);

/* The same as `rack_build` by fence rules of two bytes each, a byte and its minimum; an odd length is 6. Refusals 1, 6, 3. */
uint32_t rack_build_rules(const uint8_t *text, size_t text_len, uint8_t eol, uint8_t escape, uint8_t sep, uint8_t tab,
                          const uint8_t *rules, size_t rules_len,
                          const uint8_t *symmetric, size_t symmetric_len, const uint8_t *times, size_t times_len,
                          const uint8_t *openers, size_t openers_len, const uint8_t *closers, size_t closers_len,
                          const uint8_t *counts, size_t counts_len,
                          uint8_t *out, size_t out_len, uint8_t *answer, size_t answer_len);

/* ---- the amendment */

/* The list of an edited text, from the list of the old one: of `old`, whose first `count` regions `list` has, the bytes from `first` up to
 * `second` are replaced by `text`. Written to `out` as building writes: the regions that start before the first cut; the replacement's
 * own, moved up by the first cut; unless the second cut is the old text's end, those that start at or after it, moved by the change in
 * length. Where the old list was built from the old text by this grammar and these columns, that is, to the byte, what building the
 * edited text gives. Of the old text only its length and the two bytes before each cut are read. One value: how many there are.
 * Refusals 1 (the old text, the replacement), 6, 4, 1 (the edited text), 5, 9, 7, 8, 3. */
uint32_t rack_amend(const uint8_t *old, size_t old_len, const uint8_t *list, size_t list_len, uint32_t count,
                    size_t first, size_t second, const uint8_t *text, size_t text_len,
                    uint8_t eol, uint8_t escape, uint8_t sep, uint8_t tab,
                    const uint8_t *fences, size_t fences_len, const uint8_t *mins, size_t mins_len,
                    const uint8_t *symmetric, size_t symmetric_len, const uint8_t *times, size_t times_len,
                    const uint8_t *openers, size_t openers_len, const uint8_t *closers, size_t closers_len,
                    const uint8_t *counts, size_t counts_len,
                    uint8_t *out, size_t out_len, uint8_t *answer, size_t answer_len);

/* ---- the work sheet */

/* The items of a text that no region hides, the regions being those that `rack_build` gives by these rules: marker items by a run of
 * accepted bytes, numbered items by a run of delimiters, by rising content start, the marker item first where two are equal. A region
 * hides an item where it holds the item's marker or delimiter; one that holds only its content doesn't. Item k has five numbers from
 * byte 20k of `out` on: its content's start and end, 0 for a marker item and 1 for a numbered one, the accepted byte, the number (0
 * for a marker item); bytes behind the last item are as they were. One value: how many there are. Refusals 1, 6, 3. */
uint32_t rack_sheet(const uint8_t *text, size_t text_len, uint8_t eol, uint8_t escape, uint8_t sep, uint8_t tab,
                    const uint8_t *fences, size_t fences_len, const uint8_t *mins, size_t mins_len,
                    const uint8_t *symmetric, size_t symmetric_len, const uint8_t *times, size_t times_len,
                    const uint8_t *openers, size_t openers_len, const uint8_t *closers, size_t closers_len,
                    const uint8_t *counts, size_t counts_len,
                    const uint8_t *markers, size_t markers_len, const uint8_t *delims, size_t delims_len,
                    uint8_t *out, size_t out_len, uint8_t *answer, size_t answer_len);

/* How many items `rack_sheet` would write. One value. Refusals 1, 6, 3. */
uint32_t rack_sheet_count(const uint8_t *text, size_t text_len, uint8_t eol, uint8_t escape, uint8_t sep, uint8_t tab,
                          const uint8_t *fences, size_t fences_len, const uint8_t *mins, size_t mins_len,
                          const uint8_t *symmetric, size_t symmetric_len, const uint8_t *times, size_t times_len,
                          const uint8_t *openers, size_t openers_len, const uint8_t *closers, size_t closers_len,
                          const uint8_t *counts, size_t counts_len,
                          const uint8_t *markers, size_t markers_len, const uint8_t *delims, size_t delims_len,
                          uint8_t *answer, size_t answer_len);

/* The same sheet by a list of `count` regions in place of rules; the list need not be built, but must be sorted, apart and within the
 * text. One value: how many items there are. Refusals 1, 5, 3. */
uint32_t rack_sheet_listed(const uint8_t *text, size_t text_len, uint8_t eol, uint8_t escape, uint8_t sep, uint8_t tab,
                           const uint8_t *markers, size_t markers_len, const uint8_t *delims, size_t delims_len,
                           const uint8_t *list, size_t list_len, uint32_t count,
                           uint8_t *out, size_t out_len, uint8_t *answer, size_t answer_len);

/* How many items `rack_sheet_listed` would write. One value. Refusals 1, 5, 3. */
uint32_t rack_sheet_listed_count(const uint8_t *text, size_t text_len, uint8_t eol, uint8_t escape, uint8_t sep, uint8_t tab,
                                 const uint8_t *markers, size_t markers_len, const uint8_t *delims, size_t delims_len,
                                 const uint8_t *list, size_t list_len, uint32_t count,
                                 uint8_t *answer, size_t answer_len);

/* ---- explanations */

/* Why a line, counted from 1, is not on the work sheet of a text by the house grammar (line end 10, separator 32, tab 9, markers - * +,
 * delimiters . and closing bracket), given a list of `count` regions, eight bytes each, which need not be built. One value, the first of
 * these that holds (`enum rack_reason`):
 *
 *   1  the line doesn't exist: line 1 always does, and a line end with a byte after it starts the next
 *   2  no marker and no digit leads it
 *   3  ten digits or more lead it
 *   4  digits lead it, and no delimiter is next
 *   5  no separator or tab is next to the marker or delimiter
 *   6  it is hidden by a region; three values more: the region's number, from 0, its start and its end
 *   0  it is on the sheet
 *
 * Refusals 1, 5, 3. */
uint32_t rack_explain(const uint8_t *text, size_t text_len, const uint8_t *list, size_t list_len, uint32_t count, size_t line,
                      uint8_t *answer, size_t answer_len);

/* ---- records for other tools */

/* The first `count` regions of a list as a file of JSON (RFC 8259), in one layout: [{"start":0,"end":3},{"start":5,"end":9}], no white
 * space and no line end behind it. The list need not be built, but must be sorted, apart, and have no empty region. Two values: the
 * file's length, its low 32 bits and its high ones. Bytes of `out` behind the file are as they were. Refusals 5, 3. */
uint32_t rack_json_write(const uint8_t *list, size_t list_len, uint32_t count,
                         uint8_t *out, size_t out_len, uint8_t *answer, size_t answer_len);

/* A refusal, or 0; and behind 10 the place, else 0. */
struct rack_placed {
    uint32_t refusal;
    size_t place;
};

/* A file's regions, read into a list as `rack_build` writes one: an array of objects with the members "start" and "end" in either order,
 * white space as the RFC has it, numbers as plain unsigned integers to 4,294,967,295 without leading zeros, no escapes in names, nothing
 * else. The place of 10 is that of the first byte that can't continue such a file, whatever its regions; the length of a file that breaks
 * off. A file of any length is read. One value: how many regions there are. Refusals 10, 5, 3. */
struct rack_placed rack_json_read(const uint8_t *file, size_t file_len,
                                  uint8_t *list, size_t list_len, uint8_t *answer, size_t answer_len);

#ifdef __cplusplus
}
#endif

/* ---- inline: numbers, rows, and the house form. These are C and not proved; each is a few lines over one entry. */

static inline uint32_t rack_number(const uint8_t *at)
{
    return (uint32_t)at[0] | (uint32_t)at[1] << 8 | (uint32_t)at[2] << 16 | (uint32_t)at[3] << 24;
}

static inline void rack_put_number(uint8_t *at, uint32_t number)
{
    at[0] = (uint8_t)number;
    at[1] = (uint8_t)(number >> 8);
    at[2] = (uint8_t)(number >> 16);
    at[3] = (uint8_t)(number >> 24);
}

struct rack_region {
    uint32_t start, end;
};

struct rack_item {
    uint32_t start, end, kind, byte, number;
};

/* Region k of a list, and item k of a sheet. */
static inline struct rack_region rack_region_at(const uint8_t *list, size_t k)
{
    struct rack_region region;
    region.start = rack_number(list + k * RACK_REGION);
    region.end = rack_number(list + k * RACK_REGION + RACK_NUMBER);
    return region;
}

static inline struct rack_item rack_item_at(const uint8_t *sheet, size_t k)
{
    const uint8_t *at = sheet + k * RACK_ITEM;
    struct rack_item item;
    item.start = rack_number(at);
    item.end = rack_number(at + RACK_NUMBER);
    item.kind = rack_number(at + 2 * RACK_NUMBER);
    item.byte = rack_number(at + 3 * RACK_NUMBER);
    item.number = rack_number(at + 4 * RACK_NUMBER);
    return item;
}

/* The house grammar: line end 10, escape backslash, separator blank, tab; fences of three or more backticks or tildes; pairs of one
 * backtick, and of < and >; markers - * + and delimiters . and closing bracket. */
#define RACK_HOUSE_BYTES '\n', '\\', ' ', '\t'
#define RACK_HOUSE_RULES                                                                                                          \
    (const uint8_t *)"`~", 2, (const uint8_t *)"\3\3", 2, (const uint8_t *)"`", 1, (const uint8_t *)"\1\0\0", 4,                   \
        (const uint8_t *)"<", 1, (const uint8_t *)">", 1, (const uint8_t *)"\1\0\0", 4
#define RACK_HOUSE_SETS (const uint8_t *)"-*+", 3, (const uint8_t *)".)", 2

/* An empty run's pointer: where the length is 0 a null pointer will do. */
static inline const uint8_t *rack_run(const uint8_t *run)
{
    return run ? run : (const uint8_t *)"";
}

/* The value of an answer of one, where it was served; on a refusal `*value` is as it was. */
static inline uint32_t rack_one(uint32_t refusal, const uint8_t *answer, uint32_t *value)
{
    if (refusal == RACK_SERVED)
        *value = rack_number(answer + RACK_NUMBER);
    return refusal;
}

/* In these forms `*count` is how many regions or items there are; on a refusal it is as it was, and so is `out`. A null pointer with
 * length 0 is an empty run. */

/* How many regions a text has, and how many items its sheet has. Refusal 1. */
static inline uint32_t rack_house_build_count(const uint8_t *text, size_t text_len, uint32_t *count)
{
    uint8_t answer[RACK_ONE_ANSWER];
    return rack_one(rack_build_count(rack_run(text), text_len, RACK_HOUSE_BYTES, RACK_HOUSE_RULES, answer, sizeof answer), answer, count);
}

static inline uint32_t rack_house_sheet_count(const uint8_t *text, size_t text_len, uint32_t *count)
{
    uint8_t answer[RACK_ONE_ANSWER];
    return rack_one(rack_sheet_count(rack_run(text), text_len, RACK_HOUSE_BYTES, RACK_HOUSE_RULES, RACK_HOUSE_SETS, answer, sizeof answer),
                    answer, count);
}

/* The regions of a text, and its work sheet. Refusals 1, 3. */
static inline uint32_t rack_house_build(const uint8_t *text, size_t text_len, uint8_t *out, size_t out_len, uint32_t *count)
{
    uint8_t answer[RACK_ONE_ANSWER], none[1];
    return rack_one(rack_build(rack_run(text), text_len, RACK_HOUSE_BYTES, RACK_HOUSE_RULES, out ? out : none, out_len,
                               answer, sizeof answer),
                    answer, count);
}

static inline uint32_t rack_house_sheet(const uint8_t *text, size_t text_len, uint8_t *out, size_t out_len, uint32_t *count)
{
    uint8_t answer[RACK_ONE_ANSWER], none[1];
    return rack_one(rack_sheet(rack_run(text), text_len, RACK_HOUSE_BYTES, RACK_HOUSE_RULES, RACK_HOUSE_SETS, out ? out : none, out_len,
                               answer, sizeof answer),
                    answer, count);
}

/* The same sheet by a list. Refusals 1, 5, 3. */
static inline uint32_t rack_house_sheet_listed(const uint8_t *text, size_t text_len, const uint8_t *list, size_t list_len,
                                               uint32_t listed, uint8_t *out, size_t out_len, uint32_t *count)
{
    uint8_t answer[RACK_ONE_ANSWER], none[1];
    return rack_one(rack_sheet_listed(rack_run(text), text_len, RACK_HOUSE_BYTES, RACK_HOUSE_SETS, rack_run(list), list_len, listed,
                                      out ? out : none, out_len, answer, sizeof answer),
                    answer, count);
}

/* The list of an edited text. Refusals 1, 4, 1, 5, 7, 8, 3. */
static inline uint32_t rack_house_amend(const uint8_t *old, size_t old_len, const uint8_t *list, size_t list_len, uint32_t listed,
                                        size_t first, size_t second, const uint8_t *text, size_t text_len,
                                        uint8_t *out, size_t out_len, uint32_t *count)
{
    uint8_t answer[RACK_ONE_ANSWER], none[1];
    return rack_one(rack_amend(rack_run(old), old_len, rack_run(list), list_len, listed, first, second, rack_run(text), text_len,
                               RACK_HOUSE_BYTES, RACK_HOUSE_RULES, out ? out : none, out_len, answer, sizeof answer),
                    answer, count);
}

/* A list's file of JSON, and its length. Refusals 5, 3. */
static inline uint32_t rack_records_write(const uint8_t *list, size_t list_len, uint32_t listed, uint8_t *out, size_t out_len, size_t *size)
{
    uint8_t answer[RACK_JSON_ANSWER], none[1];
    uint32_t refusal = rack_json_write(rack_run(list), list_len, listed, out ? out : none, out_len, answer, sizeof answer);
    if (refusal == RACK_SERVED)
        *size = (size_t)(rack_number(answer + RACK_NUMBER) | (uint64_t)rack_number(answer + 2 * RACK_NUMBER) << 32);
    return refusal;
}

/* Such a file's regions. Refusals 10, 5, 3. */
static inline struct rack_placed rack_records_read(const uint8_t *file, size_t file_len, uint8_t *out, size_t out_len, uint32_t *count)
{
    uint8_t answer[RACK_ONE_ANSWER], none[1];
    struct rack_placed read = rack_json_read(rack_run(file), file_len, out ? out : none, out_len, answer, sizeof answer);
    if (read.refusal == RACK_SERVED)
        *count = rack_number(answer + RACK_NUMBER);
    return read;
}

/* Why a line isn't on the sheet (`enum rack_reason`); of a line that is hidden also the region's number, and the region. On a refusal
 * (1, 5) nothing is changed, and of a line that isn't hidden neither is `*number` nor `*region`. */
static inline uint32_t rack_house_explain(const uint8_t *text, size_t text_len, const uint8_t *list, size_t list_len, uint32_t listed,
                                          size_t line, uint32_t *reason, uint32_t *number, struct rack_region *region)
{
    uint8_t answer[RACK_EXPLAIN_ANSWER];
    uint32_t refusal = rack_one(rack_explain(rack_run(text), text_len, rack_run(list), list_len, listed, line, answer, sizeof answer),
                                answer, reason);
    if (refusal == RACK_SERVED && *reason == RACK_HIDDEN) {
        *number = rack_number(answer + 2 * RACK_NUMBER);
        *region = rack_region_at(answer + 3 * RACK_NUMBER, 0);
    }
    return refusal;
}

#endif
