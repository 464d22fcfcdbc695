#include "records.h"

#include "say.h"

#include <ctype.h>
#include <inttypes.h>

bool print_records(const struct note *note)
{
    const struct list *regions = &note->regions;
    struct list file;
    size_t size = 0;
    if (!reserve(note, &file, RACK_JSON_MAX(regions->count), 1))
        return false;
    uint32_t refusal = rack_records_write(regions->at, regions->len, regions->count, file.at, file.len, &size);
    if (!refusal)
        fwrite(file.at, 1, size, stdout);
    drop_list(&file);
    return !refusal || say_refused(note, refusal);
}

/* A byte as people know it. */
static const char *byte_name(uint8_t byte)
{
    static char name[16];
    snprintf(name, sizeof name, isgraph(byte) ? "%c" : "the byte 0x%02X", byte);
    return name;
}

static bool say_broken(const struct note *file, size_t place)
{
    struct counter counter = {.note = file};
    uint64_t line = line_at(&counter, place);
    if (place == file->len)
        say(file->name, "line %" PRIu64 ": it breaks off", line);
    else
        say(file->name, "line %" PRIu64 ", column %zu: %s can't stand here; a list reads [{\"start\":0,\"end\":12}], numbers to 4294967295", line,
            place - line_start(file, place) + 1, byte_name(file->text[place]));
    return false;
}

static bool say_why(const struct note *file, struct rack_placed why)
{
    if (why.refusal == RACK_NOT_RECORDS)
        return say_broken(file, why.place);
    if (why.refusal == RACK_LIST_MISSHAPEN)
        say(file->name, "its regions are no list: they must rise, and none may be empty or overlap another");
    else
        say_refused(file, why.refusal);
    return false;
}

static bool take_regions(struct note *file)
{
    struct list *list = &file->regions;
    if (!reserve(file, list, RACK_RECORDS_MAX(file->len), RACK_REGION))
        return false;
    struct rack_placed read = rack_records_read(file->text, file->len, list->at, list->len, &list->count);
    return !read.refusal || say_why(file, read);
}

/* Whether a byte stands there that can't continue such a file. Without room for a region nothing is written. */
static bool is_hopeless(const struct note *text)
{
    uint32_t count;
    struct rack_placed read = rack_records_read(text->text, text->len, NULL, 0, &count);
    return read.refusal == RACK_NOT_RECORDS && read.place < text->len;
}

bool open_records(struct note *file, const char *name)
{
    if (open_text(file, name, (struct reading){SIZE_MAX, is_hopeless}) && take_regions(file))
        return true;
    close_note(file);
    return false;
}
