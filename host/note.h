/* A note: its text, the regions in which nothing is read, its work sheet, its lines. */
#ifndef NOTE_H
#define NOTE_H

#include "../include/rack.h"

#include <stdbool.h>

/* A list that an entry of the panel has filled. */
struct list {
    uint8_t *at;
    size_t len;
    uint32_t count;
};

struct note {
    const char *name;
    uint8_t *text;
    size_t len;
    struct list regions;
};

/* Reads a note and builds its regions; a null name is standard input's. Where that can't be done it says why and answers false. */
bool open_note(struct note *note, const char *name);
void close_note(struct note *note);

/* How a text is read: up to so many bytes; and, where it comes without a known length, until it is hopeless, if that is asked. */
struct reading {
    size_t most;
    bool (*is_hopeless)(const struct note *text);
};
#define A_NOTE ((struct reading){RACK_TEXT_MAX, NULL})

/* Reads a text and builds nothing; a null name is standard input's. Where it can't be read it says why and answers false. In either case it is
 * to be closed. */
bool open_text(struct note *note, const char *name, struct reading how);

/* Room that is surely enough, to be dropped by the caller. Where there is none it says so and answers false. */
bool reserve(const struct note *note, struct list *list, size_t entries, size_t size);

/* The work sheet, to be dropped by the caller. Where it can't be made it says why and answers false. */
bool make_sheet(const struct note *note, struct list *sheet);
void drop_list(struct list *list);

/* Says that the panel refused a note; answers false. */
bool say_refused(const struct note *note, uint32_t refusal);

/* Where the line begins that a place stands in; where it ends; where the next one begins, which is never behind the text's end. */
size_t line_start(const struct note *note, size_t place);
size_t line_end(const struct note *note, size_t place);
size_t next_line(const struct note *note, size_t place);

/* Counts lines: up to `at` so many line ends stand. Places that are asked about must rise, so that the note is walked once. */
struct counter {
    const struct note *note;
    size_t at;
    uint64_t lines;
};
/* The number of the line that a place stands in, from 1 on. */
uint64_t line_at(struct counter *counter, size_t place);

#endif
