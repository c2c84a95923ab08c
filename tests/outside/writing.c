/* Calls the writer's two functions for a stream of cases on standard input and writes what they answer and leave to standard output.
 *
 * A case is a byte (0: rows are written as a book; 1: a book is read into rows), then four numbers of four bytes, big-endian:
 *   0: numbers in the rows, bytes of wordings, bytes of the buffer, 0; then the rows, eight bytes a number, and the wordings
 *   1: bytes of the book, bytes of wordings, 0, numbers in the rows; then the book
 * Everything that is lent is a block of its own and exactly as long as it says; what is lent to be written is filled with 119 before (rows with 77).
 * The answer is numbers of eight bytes: the refusal's number or 0, the results (the book's length; records and rules), which were 119 before, and the place, which was 119 before;
 * then the whole buffer, or the whole rows and wordings. */
#include <stdio.h>
#include <stdlib.h>
#include <string.h>

#include "malletfrond.h"

static uint64_t number(int width)
{
    uint64_t n = 0;
    for (int i = 0; i < width; i++)
        n = n * 256 + (uint64_t)(getchar() & 255);
    return n;
}

static void tell(uint64_t n)
{
    for (int i = 56; i >= 0; i -= 8)
        putchar((int)(n >> i & 255));
}

static void *block(size_t bytes, int fill)
{
    void *p = malloc(bytes + (bytes == 0));
    if (p == NULL)
        exit(2);
    memset(p, fill, bytes);
    return p;
}

static void take(uint8_t *to, size_t bytes)
{
    if (bytes != 0 && fread(to, 1, bytes, stdin) != bytes)
        exit(2);
}

static void write_case(size_t numbers, size_t wordings_length, size_t buffer_length)
{
    int64_t *rows = block(numbers * sizeof *rows, 0);
    uint8_t *wordings = block(wordings_length, 0);
    uint8_t *buffer = block(buffer_length, 119);
    uint64_t length = 119, place = 119;
    for (size_t i = 0; i < numbers; i++)
        rows[i] = (int64_t)number(8);
    take(wordings, wordings_length);
    tell(malletfrond_write_book(rows, numbers, wordings, wordings_length, buffer, buffer_length, &length, &place));
    tell(length);
    tell(place);
    fwrite(buffer, 1, buffer_length, stdout);
    free(rows);
    free(wordings);
    free(buffer);
}

static void read_case(size_t book_length, size_t wordings_length, size_t numbers)
{
    uint8_t *book = block(book_length, 0);
    uint8_t *wordings = block(wordings_length, 119);
    int64_t *rows = block(numbers * sizeof *rows, 0);
    uint64_t records = 119, rules = 119, place = 119;
    take(book, book_length);
    for (size_t i = 0; i < numbers; i++)
        rows[i] = 77;
    tell(malletfrond_read_rows(book, book_length, rows, numbers, wordings, wordings_length, &records, &rules, &place));
    tell(records);
    tell(rules);
    tell(place);
    for (size_t i = 0; i < numbers; i++)
        tell((uint64_t)rows[i]);
    fwrite(wordings, 1, wordings_length, stdout);
    free(book);
    free(wordings);
    free(rows);
}

int main(void)
{
    int what;
    while ((what = getchar()) != EOF) {
        size_t first = number(4), wordings = number(4), buffer = number(4), rows = number(4);
        if (what == 0)
            write_case(first, wordings, buffer);
        else
            read_case(first, wordings, rows);
    }
    return 0;
}
