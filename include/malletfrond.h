/* Malletfrond: a rule matcher over meter readings, in memory that the caller lends.
 *
 * Link with libmalletfrond_c.a (x86-64 Linux). The library allocates nothing and keeps nothing between calls; of the C library it calls memcpy and memset alone.
 *
 * A ROOM is memory that holds a rule book, two limits, the readings present and what is matched. It is opened once and then lent whole, from its first byte, to
 * every call. It needs no alignment and may lie anywhere; it may be copied byte for byte. It needs MALLETFROND_ROOM(t) bytes; more may be lent, and what lies
 * behind those is never touched. A slice is a pointer and a number of bytes (of rows: of numbers); the pointer of an empty one is not read.
 *
 * Two things that are lent to one call must not overlap: not the room and a buffer, not two of the numbers that results are written through.
 *
 * A call answers 0 for accepted, else the number of its refusal. A refusal changes no lent byte, and leaves the numbers lent for results as they were, except
 * that an opening, a wording and the two calls about rows write the refusal's place where they are refused.
 *
 * Refusals, in the order in which each call tries them:
 *   malletfrond_open     8 a limit out of range; 9 the room is too short; 1 to 7 the book is not accepted (place: offset of the record at fault, 0 for 1)
 *   malletfrond_add     10 the room is broken; 11 the reading is present; 13 as many readings as the limit; 14 more tokens than the limit
 *   malletfrond_remove  10 the room is broken; 12 the reading is not present
 *   malletfrond_counts  10 the room is broken
 *   malletfrond_line    10 the room is broken; 16 no such complaint; 15 the buffer is shorter than the line
 *   malletfrond_wording  1 to 7 the book is not accepted; 17 no rule of that number
 *   malletfrond_check   none
 *   malletfrond_write_book   1, 3 to 7 as the book would be refused, at the place where the record would have stood (0 for 1 and 19); 19 the buffer is shorter than the book
 *   malletfrond_read_rows    1 to 7 the book is not accepted (place: offset of the record at fault, 0 for 1 and 19); 19 the rows or the wordings are too few
 *
 * "Broken" is a rule over the room's first bytes (docs/ROOM.md). Memory that this library has opened and that nothing else has changed is never broken. Other memory
 * may be lent too: the calls are safe on any bytes, but what they then answer about matches means nothing.
 */
#ifndef MALLETFROND_H
#define MALLETFROND_H

#include <stdbool.h>
#include <stddef.h>
#include <stdint.h>

#ifdef __cplusplus
extern "C" {
#endif

/* Most readings and most tokens that a room may be opened for. */
#define MALLETFROND_MOST_READINGS 256
#define MALLETFROND_MOST_TOKENS 2048

/* The bytes of a room for t tokens. The reading limit does not count: there is always place for 256. */
#define MALLETFROND_ROOM(t) (18288 + 2 * (size_t)(t))

/* No line is longer, newline included. A wording has 24 bytes. */
#define MALLETFROND_LINE 230
#define MALLETFROND_WORDING 24

/* Opens the room for a book of book_length bytes, with e (1 to 256) readings and t (1 to 2,048) tokens at most, whatever the room held before. The book is copied.
 * Refused: its number; *place is the offset in the book, or 0, and the room is as it was. Accepted: *place is as it was. */
uint64_t malletfrond_open(uint8_t *room, size_t room_length, const uint8_t *book, size_t book_length, uint64_t e, uint64_t t, uint64_t *place);

/* Adds a reading, or removes one. Accepted: *readings are now present, *tokens are held, and *appeared complete matches are new, or *vanished are gone. */
uint64_t malletfrond_add(uint8_t *room, size_t room_length, uint32_t line, uint32_t column, uint32_t value, uint64_t *readings, uint64_t *tokens, uint64_t *appeared);
uint64_t malletfrond_remove(uint8_t *room, size_t room_length, uint32_t line, uint32_t column, uint32_t value, uint64_t *readings, uint64_t *tokens, uint64_t *vanished);

/* Readings present, tokens, complete matches. */
uint64_t malletfrond_counts(const uint8_t *room, size_t room_length, uint64_t *readings, uint64_t *tokens, uint64_t *complete);

/* Writes complaint k (0, 1, 2 ..; by rule number, then by the readings from first position to last) as a line with its newline at the front of the buffer.
 * Accepted: *length is the line's length, at most MALLETFROND_LINE; bytes behind the newline are as they were. */
uint64_t malletfrond_line(const uint8_t *room, size_t room_length, uint64_t k, uint8_t *buffer, size_t buffer_length, uint64_t *length);

/* Where in a book the 24 bytes of wording of the rule of that number stand. Accepted: *place is their offset. Refused: *place is the refusal's place. */
uint64_t malletfrond_wording(const uint8_t *book, size_t book_length, uint64_t number, uint64_t *place);

/* Whether the room holds exactly the memories and tokens that its readings and stored book define; false for a broken room. */
bool malletfrond_check(const uint8_t *room, size_t room_length);

/* ROWS are a book's values: six numbers a record, the kind and then its body's numbers in the book's order, gaps as the whole numbers that they are. The wordings stand
 * beside them, 24 bytes for each rule row, in order. The end record is no value: a book of no rows is its one byte. rows_length counts numbers; what is left over behind
 * the last six is no record. */
#define MALLETFROND_ROW 6

/* Writes the book of the rows and wordings at the front of the buffer. What a kind does not use is not looked at. A kind that no value has, 9 among them, is 3; a number
 * that its field cannot hold, and a wording that the wordings are too short for, is 6, in its turn. Accepted: *length is the book's length, at most 8,192; bytes behind
 * it are as they were, and *place is. Refused: *place is the refusal's place. */
uint64_t malletfrond_write_book(const int64_t *rows, size_t rows_length, const uint8_t *wordings, size_t wordings_length, uint8_t *buffer, size_t buffer_length, uint64_t *length, uint64_t *place);

/* Reads a book into rows and wordings; what a kind does not use is written as 0. Accepted: *records are how many rows there are, *rules how many of them are rules; what lies
 * behind 6 times *records numbers and 24 times *rules bytes is as it was, and *place is. Written again, they give the book, byte for byte. Refused: *place is the refusal's
 * place. */
uint64_t malletfrond_read_rows(const uint8_t *book, size_t book_length, int64_t *rows, size_t rows_length, uint8_t *wordings, size_t wordings_length, uint64_t *records, uint64_t *rules, uint64_t *place);

#ifdef __cplusplus
}
#endif

#endif
