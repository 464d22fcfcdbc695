#define _DEFAULT_SOURCE
#include "note.h"

#include "say.h"

#include <errno.h>
#include <fcntl.h>
#include <inttypes.h>
#include <stdlib.h>
#include <string.h>
#include <sys/mman.h>
#include <sys/stat.h>
#include <unistd.h>

/* ---- reading */

static bool say_error(const struct note *note)
{
    if (errno == ENOENT)
        say(note->name, "there is no such file");
    else if (errno == EACCES)
        say(note->name, "you may not read it; its owner can allow it (chmod +r)");
    else
        say(note->name, "it can't be read: %s", strerror(errno));
    return false;
}

static bool grow(struct note *note, size_t room)
{
    uint8_t *text = realloc(note->text, room);
    if (!text)
        return say_error(note);
    note->text = text;
    return true;
}

/* Reads a file to its end, to memory that has `room` bytes at first. One byte over the limit is enough to refuse it; and a text that is
 * hopeless is read no further than the memory that it has, so that an endless one ends. */
static bool read_all(struct note *note, int file, size_t room, struct reading how)
{
    if (!grow(note, room))
        return false;
    while (note->len <= how.most) {
        ssize_t got = read(file, note->text + note->len, room - note->len);
        if (!got)
            return true;
        if (got < 0 && errno != EINTR)
            return say_error(note);
        note->len += got < 0 ? 0 : (size_t)got;
        if (note->len == room && how.is_hopeless && how.is_hopeless(note))
            return true;
        if (note->len == room && !grow(note, room *= 2))
            return false;
    }
    return say_refused(note, RACK_TEXT_TOO_LONG);
}

/* A file is read and not mapped: what is proved holds of a text that stays, and an editor may write to a mapped file meanwhile. */
static bool read_file(struct note *note, int file, struct reading how)
{
    struct stat is;
    if (file < 0 || fstat(file, &is))
        return say_error(note);
    if (S_ISDIR(is.st_mode)) {
        say(note->name, "it is a folder; name a file in it");
        return false;
    }
    if (!S_ISREG(is.st_mode))
        return read_all(note, file, 65536, how);
    if ((uintmax_t)is.st_size > how.most)
        return say_refused(note, RACK_TEXT_TOO_LONG);
    return read_all(note, file, (size_t)is.st_size + 1, how);
}

static bool read_named(struct note *note, struct reading how)
{
    int file = open(note->name, O_RDONLY);
    bool is_read = read_file(note, file, how);
    if (file >= 0)
        close(file);
    return is_read;
}

/* A person who typed no name is told what is waited for. */
static bool read_input(struct note *note, struct reading how)
{
    if (isatty(STDIN_FILENO))
        say(note->name, "type the text, and then Ctrl-D; rack --help tells of other ways");
    return read_file(note, STDIN_FILENO, how);
}

bool open_text(struct note *note, const char *name, struct reading how)
{
    *note = (struct note){.name = name ? name : "standard input"};
    return name ? read_named(note, how) : read_input(note, how);
}

/* ---- lists */

/* It is reserved and not used: memory is taken where something is written. */
bool reserve(const struct note *note, struct list *list, size_t entries, size_t size)
{
    void *at = mmap(NULL, entries * size, PROT_READ | PROT_WRITE, MAP_PRIVATE | MAP_ANONYMOUS | MAP_NORESERVE, -1, 0);
    if (at == MAP_FAILED) {
        say(note->name, "there is no memory for its lists; cut it into smaller ones");
        return false;
    }
    *list = (struct list){at, entries * size, 0};
    return true;
}

void drop_list(struct list *list)
{
    if (list->at)
        munmap(list->at, list->len);
    *list = (struct list){0};
}

bool say_refused(const struct note *note, uint32_t refusal)
{
    if (refusal == RACK_TEXT_TOO_LONG)
        say(note->name, "it has more than 4,294,967,295 bytes; cut it into smaller notes");
    else
        say(note->name, "the panel refuses it (%" PRIu32 " of enum rack_refusal)", refusal);
    return false;
}

static bool build(struct note *note)
{
    struct list *list = &note->regions;
    if (!reserve(note, list, RACK_REGIONS_MAX(note->len), RACK_REGION))
        return false;
    uint32_t refusal = rack_house_build(note->text, note->len, list->at, list->len, &list->count);
    return !refusal || say_refused(note, refusal);
}

bool make_sheet(const struct note *note, struct list *sheet)
{
    /* By the house grammar each item has a line of two bytes and more: half of RACK_ITEMS_MAX will do. */
    if (!reserve(note, sheet, note->len / 2 + 1, RACK_ITEM))
        return false;
    /* By the regions that were built: they are not sought a second time, and the sheet is the one of the rules (law `sheet-built`). */
    const struct list *regions = &note->regions;
    uint32_t refusal = rack_house_sheet_listed(note->text, note->len, regions->at, regions->len, regions->count, sheet->at, sheet->len,
                                               &sheet->count);
    if (!refusal)
        return true;
    drop_list(sheet);
    return say_refused(note, refusal);
}

bool open_note(struct note *note, const char *name)
{
    if (open_text(note, name, A_NOTE) && build(note))
        return true;
    close_note(note);
    return false;
}

void close_note(struct note *note)
{
    free(note->text);
    drop_list(&note->regions);
}

/* ---- lines */

size_t line_start(const struct note *note, size_t place)
{
    while (place && note->text[place - 1] != '\n')
        place--;
    return place;
}

size_t line_end(const struct note *note, size_t place)
{
    const uint8_t *end = memchr(note->text + place, '\n', note->len - place);
    return end ? (size_t)(end - note->text) : note->len;
}

size_t next_line(const struct note *note, size_t place)
{
    size_t end = line_end(note, place);
    return end < note->len ? end + 1 : end;
}

uint64_t line_at(struct counter *counter, size_t place)
{
    const uint8_t *text = counter->note->text, *end;
    while (counter->at < place && (end = memchr(text + counter->at, '\n', place - counter->at))) {
        counter->at = (size_t)(end - text) + 1;
        counter->lines++;
    }
    if (counter->at < place)
        counter->at = place;
    return counter->lines + 1;
}
