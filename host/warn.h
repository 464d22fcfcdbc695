/* Warnings of what makes a note lose its steps, or take a reading for one. */
#ifndef WARN_H
#define WARN_H

#include "note.h"

/* Warns on standard error, unless `is_quiet`, with a line for each kind of fault; answers whether there is any. */
bool warn_of_faults(const struct note *note, bool is_quiet);

#endif
