/* What is told to people: lines on standard error, and text that must not steer a terminal. */
#ifndef SAY_H
#define SAY_H

#include <stddef.h>
#include <stdio.h>

/* Writes a stretch of text. What would steer a terminal is spelt out, byte by byte, as \xNN: control characters but the tab (those beyond
 * ASCII too, in UTF-8 or as single bytes), and the characters that turn the order of a line round. */
void spell(FILE *to, const void *text, size_t len);

/* A line on standard error, `rack: NAME: ` and then what is to be said. What was printed before it comes out first. */
void say(const char *name, const char *format, ...) __attribute__((format(printf, 2, 3)));

#endif
