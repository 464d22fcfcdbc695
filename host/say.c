#include "say.h"

#include <stdarg.h>
#include <stdbool.h>
#include <stdint.h>
#include <string.h>

/* The length of the UTF-8 character that stands at a place, and its number; 0 where none stands there. */
static size_t character(const uint8_t *at, size_t left, uint32_t *number)
{
    static const uint32_t least[] = {0, 0, 0x80, 0x800, 0x10000};
    size_t size = at[0] < 0xc0 ? 0 : at[0] < 0xe0 ? 2 : at[0] < 0xf0 ? 3 : at[0] < 0xf8 ? 4 : 0;
    if (!size || size > left)
        return 0;
    uint32_t n = at[0] & (0x7fu >> size);
    for (size_t i = 1; i < size; i++) {
        if ((at[i] & 0xc0) != 0x80)
            return 0;
        n = n << 6 | (at[i] & 0x3fu);
    }
    if (n < least[size] || n > 0x10ffff || (n >= 0xd800 && n < 0xe000))
        return 0;
    *number = n;
    return size;
}

static bool steers(uint32_t n)
{
    bool is_control = (n < 0x20 && n != '\t') || (n >= 0x7f && n < 0xa0);
    bool turns_order = (n >= 0x202a && n <= 0x202e) || (n >= 0x2066 && n <= 0x2069);
    return is_control || turns_order;
}

void spell(FILE *to, const void *text, size_t len)
{
    const uint8_t *at = text, *end = at + len, *kept = at; /* from `kept` on nothing is written yet */
    while (at < end) {
        if (*at >= 0x20 && *at < 0x7f) {
            at++;
            continue;
        }
        /* A byte that belongs to no character is judged by itself: a terminal with an 8-bit set takes it so. */
        uint32_t number = *at;
        size_t size = character(at, (size_t)(end - at), &number);
        if (!size)
            size = 1;
        if (!steers(number)) {
            at += size;
            continue;
        }
        fwrite(kept, 1, (size_t)(at - kept), to);
        for (kept = at + size; at < kept; at++)
            fprintf(to, "\\x%02x", *at);
    }
    fwrite(kept, 1, (size_t)(end - kept), to);
}

void say(const char *name, const char *format, ...)
{
    va_list values;
    fflush(stdout);
    fputs("rack: ", stderr);
    spell(stderr, name, strlen(name));
    fputs(": ", stderr);
    va_start(values, format);
    vfprintf(stderr, format, values);
    va_end(values);
    fputc('\n', stderr);
}
