/* The project's archive, through its C interface, as a matcher of matcher.h. */
#include "../include/malletfrond.h"
#include "matcher.h"

const bool matcher_counts_tokens = true;

static uint8_t room[MALLETFROND_ROOM(MOST_TOKENS)];

opening matcher_open(const uint8_t *book, size_t length, const char *text)
{
    (void)text;
    uint64_t place = 0;
    uint64_t refusal = malletfrond_open(room, sizeof room, book, length, MOST_READINGS, MOST_TOKENS, &place);
    return (opening){(unsigned)refusal, place};
}

change matcher_add(uint32_t line, uint32_t column, uint32_t value)
{
    uint64_t readings = 0, tokens = 0, appeared = 0;
    uint64_t refusal = malletfrond_add(room, sizeof room, line, column, value, &readings, &tokens, &appeared);
    return (change){(unsigned)refusal, (unsigned)readings, (unsigned)tokens, (unsigned)appeared};
}

change matcher_remove(uint32_t line, uint32_t column, uint32_t value)
{
    uint64_t readings = 0, tokens = 0, vanished = 0;
    uint64_t refusal = malletfrond_remove(room, sizeof room, line, column, value, &readings, &tokens, &vanished);
    return (change){(unsigned)refusal, (unsigned)readings, (unsigned)tokens, (unsigned)vanished};
}

size_t matcher_complaints(void)
{
    uint64_t readings = 0, tokens = 0, complete = 0;
    malletfrond_counts(room, sizeof room, &readings, &tokens, &complete);
    return complete;
}

size_t matcher_line(size_t k, uint8_t *buffer, size_t length)
{
    uint64_t written = 0;
    malletfrond_line(room, sizeof room, k, buffer, length, &written);
    return written;
}
