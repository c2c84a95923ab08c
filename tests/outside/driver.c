/* Makes calls of the library as a stream of commands asks, and prints what came back. Each command is one letter and big-endian numbers.
 *
 *   N length fill          (4, 1) a new room of that many bytes, all `fill`, with guard bytes before and behind it
 *   O book e t             (4 + bytes, 8, 8) open            -> number place
 *   A, R line column value (4, 4, 4) add, remove             -> number readings tokens changed
 *   C                      counts                            -> number readings tokens complete
 *   L k length             (8, 4) line into a buffer of that many bytes, guarded -> number length bytes-in-hex
 *   K                      check                             -> 0 or 1
 *   W book number          (4 + bytes, 8) wording            -> number place
 *   D                      the room's bytes                  -> bytes in hex
 *   P offset byte          (4, 1) changes a byte of the room
 *   X bytes                (4 + bytes) the room's bytes from its first on
 *
 * After every call the guards are looked at, and after a refusal every lent byte: "GUARD" or "CHANGED" on a line of its own says what was broken. */
#include <stdio.h>
#include <stdlib.h>
#include <string.h>
#include "malletfrond.h"

enum { GUARD = 64, SENTINEL = 77 };

static uint8_t *space, *room, *before;
static size_t room_length;

static uint8_t next_byte(void)
{
    int c = getchar();
    if (c == EOF) { fflush(stdout); exit(1); }
    return (uint8_t)c;
}

static uint64_t next_number(int bytes)
{
    uint64_t n = 0;
    while (bytes-- > 0) n = n << 8 | next_byte();
    return n;
}

static uint8_t *guarded(size_t length, uint8_t fill)
{
    uint8_t *p = malloc(length + 2 * GUARD);
    if (!p) exit(2);
    memset(p, 0xA5, length + 2 * GUARD);
    memset(p + GUARD, fill, length);
    return p;
}

static int guards_hold(const uint8_t *p, size_t length)
{
    for (int i = 0; i < GUARD; i++)
        if (p[i] != 0xA5 || p[GUARD + length + i] != 0xA5) return 0;
    return 1;
}

static void print_hex(const uint8_t *p, size_t length)
{
    static const char digit[] = "0123456789abcdef";
    for (size_t i = 0; i < length; i++) { putchar(digit[p[i] >> 4]); putchar(digit[p[i] & 15]); }
}

static void remember(void) { memcpy(before, room, room_length); }

static void look(int must_be_the_same)
{
    if (!guards_hold(space, room_length)) puts("GUARD");
    if (must_be_the_same && memcmp(before, room, room_length)) puts("CHANGED");
}

static uint8_t *next_slice(size_t *length)
{
    *length = next_number(4);
    uint8_t *p = malloc(*length + 1);
    if (!p) exit(2);
    for (size_t i = 0; i < *length; i++) p[i] = next_byte();
    return p;
}

static void new_room(void)
{
    room_length = next_number(4);
    uint8_t fill = next_byte();
    free(space);
    free(before);
    space = guarded(room_length, fill);
    before = malloc(room_length + 1);
    if (!before) exit(2);
    room = space + GUARD;
}

static void open_room(void)
{
    size_t length;
    uint8_t *book = next_slice(&length);
    uint64_t e = next_number(8), t = next_number(8), place = SENTINEL;
    remember();
    uint64_t number = malletfrond_open(room, room_length, book, length, e, t, &place);
    printf("%llu %llu\n", (unsigned long long)number, (unsigned long long)place);
    look(number != 0);
    free(book);
}

static void step(int adding)
{
    uint32_t line = next_number(4), column = next_number(4), value = next_number(4);
    uint64_t a = SENTINEL, b = SENTINEL, c = SENTINEL;
    remember();
    uint64_t number = adding ? malletfrond_add(room, room_length, line, column, value, &a, &b, &c)
                             : malletfrond_remove(room, room_length, line, column, value, &a, &b, &c);
    printf("%llu %llu %llu %llu\n", (unsigned long long)number, (unsigned long long)a, (unsigned long long)b, (unsigned long long)c);
    look(number != 0);
}

static void counts(void)
{
    uint64_t a = SENTINEL, b = SENTINEL, c = SENTINEL;
    remember();
    uint64_t number = malletfrond_counts(room, room_length, &a, &b, &c);
    printf("%llu %llu %llu %llu\n", (unsigned long long)number, (unsigned long long)a, (unsigned long long)b, (unsigned long long)c);
    look(1);
}

static void line(void)
{
    uint64_t k = next_number(8), n = SENTINEL;
    size_t length = next_number(4);
    uint8_t *p = guarded(length, 0x5A);
    remember();
    uint64_t number = malletfrond_line(room, room_length, k, p + GUARD, length, &n);
    printf("%llu %llu ", (unsigned long long)number, (unsigned long long)n);
    print_hex(p + GUARD, length);
    putchar('\n');
    look(1);
    if (!guards_hold(p, length)) puts("GUARD");
    free(p);
}

static void wording(void)
{
    size_t length;
    uint8_t *book = next_slice(&length);
    uint64_t rule = next_number(8), place = SENTINEL;
    uint64_t number = malletfrond_wording(book, length, rule, &place);
    printf("%llu %llu\n", (unsigned long long)number, (unsigned long long)place);
    free(book);
}

static void put_bytes(void)
{
    size_t length;
    uint8_t *p = next_slice(&length);
    memcpy(room, p, length < room_length ? length : room_length);
    free(p);
}

int main(void)
{
    for (int c; (c = getchar()) != EOF;) {
        switch (c) {
        case 'N': new_room(); break;
        case 'O': open_room(); break;
        case 'A': step(1); break;
        case 'R': step(0); break;
        case 'C': counts(); break;
        case 'L': line(); break;
        case 'K': remember(); printf("%d\n", malletfrond_check(room, room_length)); look(1); break;
        case 'W': wording(); break;
        case 'D': print_hex(room, room_length); putchar('\n'); break;
        case 'P': { size_t at = next_number(4); uint8_t b = next_byte(); if (at < room_length) room[at] = b; break; }
        case 'X': put_bytes(); break;
        default: puts("UNKNOWN"); fflush(stdout); return 1;
        }
    }
    fflush(stdout);
    return 0;
}
