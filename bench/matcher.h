/* What a matcher offers to program.c. One of ours.c, clips.c and plain.c is linked with it.
 * Every matcher opens with 256 readings and 2,048 tokens at most, as the program of the desk does. */
#ifndef BENCH_MATCHER_H
#define BENCH_MATCHER_H

#include <stdbool.h>
#include <stddef.h>
#include <stdint.h>
#include <string.h>

enum { MOST_READINGS = 256, MOST_TOKENS = 2048, MOST_RULES = 32, MOST_CONDITIONS = 6, MOST_TESTS = 8 };
enum { WORDING = 24, LONGEST_LINE = 230 };

typedef struct { unsigned refusal; size_t place; } opening;
typedef struct { unsigned refusal, readings, tokens, changed; } change;

/* `text` names a file with the same rules as text, for a matcher that reads no rule book; it may be NULL. */
opening matcher_open(const uint8_t *book, size_t length, const char *text);
change matcher_add(uint32_t line, uint32_t column, uint32_t value);
change matcher_remove(uint32_t line, uint32_t column, uint32_t value);

/* How many complaints stand. The lines 0, 1, 2 .. may be asked for until the next change. */
size_t matcher_complaints(void);
size_t matcher_line(size_t k, uint8_t *buffer, size_t length);

/* false: the matcher has no token count; the program prints `?` in its place. */
extern const bool matcher_counts_tokens;

/* ---- for the matchers that write their lines themselves ---- */

static inline uint32_t big_endian_4(const uint8_t *p)
{
    return (uint32_t)p[0] << 24 | (uint32_t)p[1] << 16 | (uint32_t)p[2] << 8 | p[3];
}

static inline uint8_t *write_number(uint8_t *to, uint32_t n)
{
    static const uint32_t power[10] = {1, 10, 100, 1000, 10000, 100000, 1000000, 10000000, 100000000, 1000000000};
    unsigned digits = 1;
    while (digits < 10 && n >= power[digits])
        digits++;
    for (unsigned at = digits; at--; n /= 10)
        to[at] = (uint8_t)('0' + n % 10);
    return to + digits;
}

static inline uint8_t *write_reading(uint8_t *to, const uint32_t reading[3])
{
    *to++ = ' ';
    to = write_number(to, reading[0]);
    *to++ = '/';
    to = write_number(to, reading[1]);
    *to++ = '/';
    return write_number(to, reading[2]);
}

/* The end of a line: the wording without its trailing spaces, and the newline. */
static inline uint8_t *write_wording(uint8_t *to, const uint8_t *wording)
{
    size_t n = WORDING;
    while (n && wording[n - 1] == ' ')
        n--;
    *to++ = ' ';
    *to++ = '|';
    memcpy(to, wording, n);
    to += n;
    *to++ = '\n';
    return to;
}

#endif
