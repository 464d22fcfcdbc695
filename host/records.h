/* Records: regions as a file of JSON, for other tools. */
#ifndef RECORDS_H
#define RECORDS_H

#include "note.h"

/* Prints a note's regions as such a file. Where that can't be done it says why and answers false. */
bool print_records(const struct note *note);

/* Reads such a file: its text, and its regions as a note's. A null name is standard input's. Where it is refused it says why and answers
 * false. */
bool open_records(struct note *file, const char *name);

#endif
