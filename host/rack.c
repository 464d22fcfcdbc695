/* rack: prints the work sheets of notes, by the house grammar, with the proved entries of the panel (include/rack.h). */
#include "note.h"
#include "records.h"
#include "say.h"
#include "warn.h"
#include "why.h"

#include <errno.h>
#include <inttypes.h>
#include <stdlib.h>
#include <string.h>

/* The exit status, the highest of what happened. */
enum { FINE, WARNED, FAILED };

struct options {
    bool regions, raw, why, one; /* --why of one line */
    bool strict, quiet, json;
    const char *records; /* the file of --from-json */
    uint64_t line;
    char **names;
    int count;
};

/* ---- printing */

static void print_item(struct counter *counter, struct rack_item item)
{
    char lead[16] = {(char)item.byte};
    if (item.kind == RACK_NUMBERED)
        snprintf(lead, sizeof lead, "%" PRIu32 "%c", item.number, (int)item.byte);
    printf("%6" PRIu64 "  %-4s  ", line_at(counter, item.start), lead);
    spell(stdout, counter->note->text + item.start, item.end - item.start);
    putchar('\n');
}

static void print_region(struct counter *counter, struct rack_region region)
{
    uint64_t first = line_at(counter, region.start);
    printf("%6" PRIu64 "  to line %" PRIu64 " nothing is read: bytes %" PRIu32 " to %" PRIu32 "\n", first,
           line_at(counter, region.end - 1), region.start, region.end);
}

/* The numbers of a list alone, an entry on each line. */
static void print_raw(const struct list *list, size_t size)
{
    for (size_t i = 0; i < list->count; i++)
        for (size_t k = 0; k < size; k += RACK_NUMBER)
            printf("%" PRIu32 "%c", rack_number(list->at + i * size + k), k + RACK_NUMBER == size ? '\n' : '\t');
}

static void print_regions(const struct note *note, bool is_raw)
{
    struct counter counter = {.note = note};
    if (is_raw) {
        print_raw(&note->regions, RACK_REGION);
        return;
    }
    for (size_t k = 0; k < note->regions.count; k++)
        print_region(&counter, rack_region_at(note->regions.at, k));
}

static void print_sheet(const struct note *note, const struct list *sheet, bool is_raw)
{
    struct counter counter = {.note = note};
    if (is_raw) {
        print_raw(sheet, RACK_ITEM);
        return;
    }
    for (size_t k = 0; k < sheet->count; k++)
        print_item(&counter, rack_item_at(sheet->at, k));
}

static bool print_lists(const struct note *note, const struct options *options)
{
    struct list sheet;
    if (!make_sheet(note, &sheet))
        return false;
    if (options->regions)
        print_regions(note, options->raw);
    print_sheet(note, &sheet, options->raw);
    drop_list(&sheet);
    return true;
}

static void print_heading(const char *name, bool is_first)
{
    fputs(is_first ? "==> " : "\n==> ", stdout);
    spell(stdout, name, strlen(name));
    puts(" <==");
}

/* A note's warnings come before its sheet: a reader that wants no more than the sheet's first lines must not miss them. */
static int print_note(const struct note *note, const struct options *options)
{
    int status = warn_of_faults(note, options->quiet) && options->strict ? WARNED : FINE;
    if (options->json)
        return print_records(note) ? status : FAILED;
    if (options->why && options->one)
        print_why(note, options->line);
    else if (options->why)
        print_every_why(note);
    else if (!print_lists(note, options))
        status = FAILED;
    return status;
}

/* Whether all was written. A closed pipe is the reader's wish, of which nothing is said. */
static bool is_written(void)
{
    if (!fflush(stdout) && !ferror(stdout))
        return true;
    if (errno != EPIPE)
        say("standard output", "not all could be written: %s", strerror(errno));
    return false;
}

/* A dash is standard input. */
static const char *named(const char *word)
{
    return strcmp(word, "-") ? word : NULL;
}

static int print_notes(const struct options *options)
{
    int status = FINE;
    bool is_first = true;
    for (int i = 0; i < options->count; i++) {
        struct note note;
        if (!open_note(&note, named(options->names[i]))) {
            status = FAILED;
            continue;
        }
        if (options->count > 1)
            print_heading(note.name, is_first);
        is_first = false;
        int printed = print_note(&note, options);
        bool is_out = is_written();
        close_note(&note);
        if (!is_out)
            return FAILED;
        if (status < printed)
            status = printed;
    }
    return status;
}

/* ---- records */

/* Without a note places alone can be told. */
static void print_places(const struct list *regions, bool is_raw)
{
    if (is_raw) {
        print_raw(regions, RACK_REGION);
        return;
    }
    for (size_t k = 0; k < regions->count; k++) {
        struct rack_region region = rack_region_at(regions->at, k);
        printf("bytes %" PRIu32 " to %" PRIu32 "\n", region.start, region.end);
    }
}

/* Regions that were read, over the text of a note. They are sorted: the last one's end tells of all. */
static bool print_over(const struct note *file, const char *name, bool is_raw)
{
    struct note note;
    const struct list *regions = &file->regions;
    if (!open_text(&note, name, A_NOTE)) {
        close_note(&note);
        return false;
    }
    bool is_within = !regions->count || rack_region_at(regions->at, regions->count - 1).end <= note.len;
    if (is_within) {
        note.regions = *regions;
        print_regions(&note, is_raw);
        note.regions = (struct list){0};
    } else {
        say(file->name, "its last region ends behind the end of %s", note.name);
    }
    close_note(&note);
    return is_within;
}

static int print_file(const struct options *options)
{
    struct note file;
    bool is_shown = true;
    if (!open_records(&file, named(options->records)))
        return FAILED;
    if (options->count)
        is_shown = print_over(&file, named(options->names[0]), options->raw);
    else
        print_places(&file.regions, options->raw);
    close_note(&file);
    return is_written() && is_shown ? FINE : FAILED;
}

/* ---- the command */

static const char USAGE[] =
    "usage: rack [--regions] [--raw] [--strict] [--quiet] [NOTE ...]\n"
    "       rack --why [LINE] [--strict] [--quiet] [NOTE ...]\n"
    "       rack --json [--strict] [--quiet] [NOTE]\n"
    "       rack --from-json FILE [--raw] [NOTE]\n"
    "\n"
    "Prints the work sheets of notes: the items that stand in no fence and in no inline pair. Each has a line: its line\n"
    "number, its number or mark, its content. Without a NOTE, or where it is -, standard input is read. Of several notes each\n"
    "has a heading, ==> NAME <==.\n"
    "\n"
    "  --regions    first the regions in which nothing is read\n"
    "  --raw        numbers alone, parted by tabs: start, end, kind (0 marker, 1 numbered), byte, number of an item; start and\n"
    "               end of a region. Places count bytes from 0\n"
    "  --why        why a line, counted from 1, isn't on the sheet; without a number, why each line that begins like an item isn't.\n"
    "               A note whose name is a number is written ./NUMBER\n"
    "  --json       the regions as a file of JSON: [{\"start\":0,\"end\":12}]\n"
    "  --from-json  the regions of such a file, which is checked: their places, and with a NOTE their lines; no sheet. Without a\n"
    "               NOTE none is read; a FILE that is - is standard input\n"
    "  --strict     exit status 1 where anything is warned of\n"
    "  -q, --quiet  no warnings\n"
    "  -h, --help   this\n"
    "  --version    the version\n"
    "  --           what follows is a note's name\n"
    "\n"
    "Warnings on standard error tell of what makes a note lose its steps: fences that are indented or not closed, pairs that\n"
    "hide items, carriage returns, byte-order marks, UTF-16.\n"
    "\n"
    "Exit status 2, with a line on standard error, where a note or a file of JSON can't be read or is refused, or not all can be\n"
    "written.\n";

/* Prints what was asked for in place of notes, and ends. */
_Noreturn static void print_and_exit(const char *text)
{
    fputs(text, stdout);
    exit(is_written() ? FINE : FAILED);
}

/* Sets what a flag sets; answers whether there is such a flag. */
static bool set_flag(struct options *options, const char *flag)
{
    struct {
        const char *flag;
        bool *is_set;
    } const flags[] = {
        {"--regions", &options->regions}, {"--raw", &options->raw}, {"--why", &options->why},
        {"--strict", &options->strict}, {"--quiet", &options->quiet}, {"-q", &options->quiet}, {"--json", &options->json},
    };
    for (size_t i = 0; i < sizeof flags / sizeof *flags; i++)
        if (!strcmp(flag, flags[i].flag)) {
            *flags[i].is_set = true;
            return true;
        }
    return false;
}

_Noreturn static void end_with(const char *word, const char *why)
{
    say(word, "%s", why);
    exit(FAILED);
}

static void take_flag(struct options *options, const char *flag)
{
    if (!strcmp(flag, "-h") || !strcmp(flag, "--help"))
        print_and_exit(USAGE);
    if (!strcmp(flag, "--version"))
        print_and_exit("rack " RACK_VERSION "\n");
    if (!set_flag(options, flag))
        end_with(flag, "there is no such flag; rack --help lists them");
}

static bool is_number(const char *word)
{
    return word && word[0] && !word[strspn(word, "0123456789")];
}

/* What can't be asked for at once. A file of records is one list: it has one note. */
static void check_together(const struct options *options)
{
    const char *flag = options->json ? "--json" : options->records ? "--from-json" : NULL;
    if (!flag)
        return;
    if (options->why || (options->json && (options->regions || options->raw || options->records)))
        end_with(flag, "it goes with no other kind of list; rack --help tells which flags it takes");
    if (options->count > 1)
        end_with(flag, "it takes one note");
    if (options->records && options->count && !named(options->records) && !named(options->names[0]))
        end_with(flag, "the file and the note can't both be standard input");
}

/* The names are gathered at the front of the words. */
static struct options parsed(int count, char **words)
{
    static char *standard_input[] = {"-"};
    struct options options = {.names = words};
    bool are_names = false;
    for (int i = 1; i < count; i++) {
        if (are_names || words[i][0] != '-' || !strcmp(words[i], "-")) {
            options.names[options.count++] = words[i];
        } else if (!strcmp(words[i], "--")) {
            are_names = true;
        } else if (!strcmp(words[i], "--from-json")) {
            options.records = words[i + 1] ? words[++i] : NULL;
            if (!options.records)
                end_with(words[i], "the name of a file follows it");
        } else if (!strcmp(words[i], "--why") && is_number(words[i + 1])) {
            options.why = options.one = true;
            options.line = strtoull(words[++i], NULL, 10);
        } else {
            take_flag(&options, words[i]);
        }
    }
    check_together(&options);
    if (!options.count && !options.records) {
        options.names = standard_input;
        options.count = 1;
    }
    return options;
}

int main(int count, char **words)
{
    setvbuf(stderr, NULL, _IOLBF, BUFSIZ); /* a message comes out whole, and not in parts between those of another program */
    struct options options = parsed(count, words);
    return options.records ? print_file(&options) : print_notes(&options);
}
