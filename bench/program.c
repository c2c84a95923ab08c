/* program RULES STEPS [TEXT]: the program of the desk over a matcher of matcher.h, with a mark around every call.
 * TEXT is handed on to the matcher's opening. */
#include <stdio.h>
#include <stdlib.h>

#include "marks.h"
#include "matcher.h"

enum { BIGGEST_FILE = 1 << 20, STEP = 13 };

typedef struct { uint8_t *bytes; size_t length; } file;

static uint8_t lines[MOST_TOKENS * LONGEST_LINE];

static FILE *open_file(const char *name)
{
    FILE *from = fopen(name, "rb");
    if (!from) {
        puts("! 18 0");
        exit(0);
    }
    return from;
}

static file read_file(FILE *from)
{
    file f = {malloc(BIGGEST_FILE), 0};
    f.length = fread(f.bytes, 1, BIGGEST_FILE, from);
    fclose(from);
    return f;
}

static void list(void)
{
    mark(LISTING);
    size_t complaints = matcher_complaints(), used = 0;
    for (size_t k = 0; k < complaints; k++)
        used += matcher_line(k, lines + used, LONGEST_LINE);
    mark(BETWEEN);
    printf("= %zu\n", complaints);
    fwrite(lines, 1, used, stdout);
}

static void print_change(char sign, change c)
{
    if (c.refusal)
        printf("! %u\n", c.refusal);
    else if (matcher_counts_tokens)
        printf("%c %u %u %u\n", sign, c.readings, c.tokens, c.changed);
    else
        printf("%c %u ? %u\n", sign, c.readings, c.changed);
}

static void add(uint32_t line, uint32_t column, uint32_t value)
{
    mark(ADDITION);
    change c = matcher_add(line, column, value);
    mark(BETWEEN);
    print_change('+', c);
}

static void withdraw(uint32_t line, uint32_t column, uint32_t value)
{
    mark(REMOVAL);
    change c = matcher_remove(line, column, value);
    mark(BETWEEN);
    print_change('-', c);
}

/* One step; its length, or 0 where the steps end in a refusal. */
static size_t take_step(const uint8_t *at, size_t left)
{
    if (*at == 3)
        return list(), 1;
    if (*at != 1 && *at != 2)
        return puts("! 3"), 0;
    if (left < STEP)
        return puts("! 2"), 0;
    (*at == 1 ? add : withdraw)(big_endian_4(at + 1), big_endian_4(at + 5), big_endian_4(at + 9));
    return STEP;
}

int main(int count, char **names)
{
    if (count < 3)
        return fputs("usage: program RULES STEPS [TEXT]\n", stderr), 2;
    FILE *rules = open_file(names[1]), *steps_from = open_file(names[2]);
    file book = read_file(rules), steps = read_file(steps_from);
    mark(OPENING);
    opening o = matcher_open(book.bytes, book.length, count > 3 ? names[3] : NULL);
    mark(BETWEEN);
    if (o.refusal)
        return printf("! %u %zu\n", o.refusal, o.place), 0;
    for (size_t at = 0, taken = 1; taken && at < steps.length; at += taken)
        taken = take_step(steps.bytes + at, steps.length - at);
    return 0;
}
