#include "warn.h"

#include "say.h"
#include "why.h"

#include <inttypes.h>
#include <stdarg.h>
#include <string.h>

/* A kind of fault: the first place that has it, and how many there are. */
struct fault {
    size_t place;
    uint64_t count;
};

static void add(struct fault *fault, size_t place)
{
    if (!fault->count++)
        fault->place = place;
}

static uint64_t line_of(const struct note *note, size_t place)
{
    struct counter counter = {.note = note};
    return line_at(&counter, place);
}

struct report {
    const struct note *note;
    bool is_quiet, is_any; /* whether there is any fault */
};

/* Says what is wrong, where it is first and how often more, and then what it does and what to do. */
__attribute__((format(printf, 4, 5)))
static void tell(struct report *report, struct fault fault, const char *what, const char *format, ...)
{
    char rest[200], more[40] = "";
    va_list values;
    if (!fault.count)
        return;
    report->is_any = true;
    if (report->is_quiet)
        return;
    va_start(values, format);
    vsnprintf(rest, sizeof rest, format, values);
    va_end(values);
    if (fault.count > 1)
        snprintf(more, sizeof more, " (and %" PRIu64 " more)", fault.count - 1);
    say(report->note->name, "line %" PRIu64 ": %s%s: %s", line_of(report->note, fault.place), what, more, rest);
}

/* ---- bytes that no plain text has */

static bool begins(const struct note *note, const char *with)
{
    size_t len = strlen(with);
    return note->len >= len && !memcmp(note->text, with, len);
}

static struct fault byte_order_mark(const struct note *note)
{
    return (struct fault){.count = begins(note, "\xef\xbb\xbf")};
}

static struct fault carriage_returns(const struct note *note)
{
    struct fault fault = {0};
    const uint8_t *at = note->text, *end = at + note->len;
    for (; (at = memchr(at, '\r', (size_t)(end - at))); at++)
        if (at + 1 < end && at[1] == '\n')
            add(&fault, (size_t)(at - note->text));
    return fault;
}

/* NUL bytes, at even and at odd places. */
struct nuls {
    struct fault all;
    uint64_t even, odd;
};

static struct nuls nul_bytes(const struct note *note)
{
    struct nuls nuls = {0};
    const uint8_t *at = note->text, *end = at + note->len;
    for (; (at = memchr(at, 0, (size_t)(end - at))); at++) {
        size_t place = (size_t)(at - note->text);
        add(&nuls.all, place);
        *(place % 2 ? &nuls.odd : &nuls.even) += 1;
    }
    return nuls;
}

/* The name by which iconv knows what a note seems to be: its mark tells, or a NUL in more than half of all pairs of bytes, ever on the same
 * side. Null where it doesn't seem to be UTF-16. */
static const char *utf16(const struct note *note, struct nuls nuls)
{
    if (begins(note, "\xff\xfe") || begins(note, "\xfe\xff"))
        return "UTF-16";
    if (!nuls.even && nuls.odd > note->len / 4)
        return "UTF-16LE";
    if (!nuls.odd && nuls.even > note->len / 4)
        return "UTF-16BE";
    return NULL;
}

static void tell_nuls(struct report *report)
{
    struct nuls nuls = nul_bytes(report->note);
    const char *form = utf16(report->note, nuls);
    if (form)
        tell(report, (struct fault){.count = 1}, "not plain text (UTF-16?)", "no item is seen in it; convert it with: iconv -f %s -t UTF-8", form);
    else
        tell(report, nuls.all, "a NUL byte", "this is no plain text");
}

/* ---- fences */

static size_t run_end(const struct note *note, size_t at)
{
    uint8_t byte = note->text[at];
    while (at < note->len && note->text[at] == byte)
        at++;
    return at;
}

static size_t blanks_end(const struct note *note, size_t at)
{
    while (at < note->len && (note->text[at] == ' ' || note->text[at] == '\t'))
        at++;
    return at;
}

/* A pair's opening run has one byte, a fence's three and more. */
static bool is_fence(const struct note *note, struct rack_region region)
{
    return note->text[region.start] == note->text[region.start + 1];
}

/* Whether the note's last line closes a fence: it has a run as long, both counted to 255, and blanks behind it. */
static bool is_closed(const struct note *note, struct rack_region fence)
{
    size_t last = line_start(note, note->len);
    if (last <= fence.start || last == note->len || note->text[last] != note->text[fence.start])
        return false;
    size_t opening = run_end(note, fence.start) - fence.start, closing = run_end(note, last) - last;
    return (closing >= opening || closing >= 255) && blanks_end(note, last + closing) == note->len;
}

/* A fence that nothing closes is the last region, and reaches the note's end. */
static void tell_unclosed(struct report *report)
{
    const struct note *note = report->note;
    if (!note->regions.count)
        return;
    struct rack_region last = rack_region_at(note->regions.at, note->regions.count - 1);
    struct fault fault = {last.start, last.end == note->len && is_fence(note, last) && !is_closed(note, last)};
    tell(report, fault, "nothing closes this fence", "all behind it is hidden; close it by a line of %zu %c or more and nothing else",
         run_end(note, last.start) - last.start, note->text[last.start]);
}

/* Whether a line would open a fence if it began at a place. */
static bool would_open(const struct note *note, size_t at)
{
    if (at == note->len || (note->text[at] != '`' && note->text[at] != '~'))
        return false;
    size_t end = run_end(note, at);
    return end - at >= 3 && !memchr(note->text + end, note->text[at], line_end(note, end) - end);
}

/* Blanks neither begin nor end a region, so that an indented run is in one where its line's start is. */
static struct fault indented_fences(const struct note *note)
{
    struct fault fault = {0};
    struct rack_region region = {0, 0};
    uint32_t k = 0;
    for (size_t at = 0; at < note->len; at = next_line(note, at)) {
        while (k < note->regions.count && region.end <= at)
            region = rack_region_at(note->regions.at, k++);
        if (region.start <= at && at < region.end) {
            at = region.end - 1;
            continue;
        }
        size_t run = blanks_end(note, at);
        if (run > at && would_open(note, run))
            add(&fault, run);
    }
    return fault;
}

/* ---- pairs */

/* The first line behind the one that a pair begins on, whose item the pair hides; the note's end where there is none. */
static size_t hidden_line(const struct note *note, struct rack_region pair)
{
    const uint8_t *text = note->text, *end;
    size_t at = pair.start;
    while ((end = memchr(text + at, '\n', pair.end - at))) {
        at = (size_t)(end - text) + 1;
        if (reason_of(note, at, pair) == RACK_HIDDEN)
            return at;
    }
    return note->len;
}

static void tell_pairs(struct report *report)
{
    const struct note *note = report->note;
    struct fault fault = {0};
    struct rack_region first = {0, 0};
    for (uint32_t k = 0; k < note->regions.count; k++) {
        struct rack_region pair = rack_region_at(note->regions.at, k);
        if (is_fence(note, pair) || hidden_line(note, pair) == note->len)
            continue;
        if (!fault.count)
            first = pair;
        add(&fault, pair.start);
    }
    if (!fault.count)
        return;
    uint8_t opener = note->text[first.start], closer = note->text[first.end - 1];
    tell(report, fault, "a pair over lines",
         "its %c and the %c of line %" PRIu64 " hide the item of line %" PRIu64 "; write \\%c where none is meant", opener, closer,
         line_of(note, first.end - 1), line_of(note, hidden_line(note, first)), opener);
}

/* ---- all of them */

bool warn_of_faults(const struct note *note, bool is_quiet)
{
    struct report report = {note, is_quiet, false};
    tell(&report, byte_order_mark(note), "a byte-order mark",
         "what stands behind it is no item and opens no fence; remove it with: tail -c +4");
    tell_nuls(&report);
    tell(&report, carriage_returns(note), "a carriage return before the line end",
         "such a line closes no fence; remove it with: tr -d '\\r'");
    tell_unclosed(&report);
    tell(&report, indented_fences(note), "an indented fence is none",
         "the readings behind it are taken for items; begin it at the line's start");
    tell_pairs(&report);
    return report.is_any;
}
