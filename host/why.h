/* Why a line isn't on the work sheet. */
#ifndef WHY_H
#define WHY_H

#include "note.h"

/* The reason (`enum rack_reason`) of the line that begins at a place. Of the note's regions it needs the one that reaches into the line from an
 * earlier one; any other does no harm. */
uint32_t reason_of(const struct note *note, size_t at, struct rack_region region);

/* Prints the reason of one line, counted from 1. */
void print_why(const struct note *note, uint64_t line);

/* Prints the reason of each line that begins like an item and isn't on the sheet. */
void print_every_why(const struct note *note);

#endif
