/* CLIPS 6.30 as a matcher of matcher.h. The rules have no action and nothing is run, so the agenda is the list of complete matches.
 *
 * Three things CLIPS does not do are done here: a fact is found by its numbers through a table, the limit of readings is kept, and the agenda is sorted when a
 * list is asked for. Two cannot be had: the token count, since CLIPS shares equal openings of rules, and the token limit.
 *
 * Compiled with ABOVE, a reading has the fourth slot of clips_rules.py. */
#include <stdio.h>
#include <stdlib.h>

#include <clips/clips.h>

#include "matcher.h"

#ifdef ABOVE
enum { SLOTS_OF_A_FACT = 4 };
#else
enum { SLOTS_OF_A_FACT = 3 };
#endif
enum { BUCKETS_OF_FACTS = 512, LONGEST_CONSTRUCT = 1 << 16 };

const bool matcher_counts_tokens = false;

typedef struct known { uint32_t at[3]; struct fact *fact; struct known *next; } known;

static void *environment;
static struct deftemplate *template_of_readings;
static struct { unsigned number; const uint8_t *wording; } rule_of[MOST_RULES];
static known pool[MOST_READINGS], *unused, *table[BUCKETS_OF_FACTS];
static unsigned present;

/* Only number and wording are taken from the book: CLIPS gets the rules as text. The kind of a record fixes its length. */
static void take_rules(const uint8_t *book)
{
    static const size_t length[] = {[1] = 27, [2] = 1, [3] = 7, [4] = 5, [5] = 20};
    unsigned rules = 0;
    for (const uint8_t *at = book; *at != 9; at += length[*at])
        if (*at == 1) {
            rule_of[rules].number = (unsigned)(at[1] << 8 | at[2]);
            rule_of[rules++].wording = at + 3;
        }
}

opening matcher_open(const uint8_t *book, size_t length, const char *text)
{
    (void)length;
    static char construct[LONGEST_CONSTRUCT];
    FILE *from = fopen(text, "r");
    environment = CreateEnvironment();
    while (from && fgets(construct, sizeof construct, from))
        if (!EnvBuild(environment, construct)) {
            fprintf(stderr, "CLIPS refuses %s\n", construct);
            exit(1);
        }
    if (!from || fclose(from))
        exit(1);
    template_of_readings = EnvFindDeftemplate(environment, "reading");
    take_rules(book);
    for (int i = 0; i < MOST_READINGS; i++) {
        pool[i].next = unused;
        unused = &pool[i];
    }
    return (opening){0, 0};
}

/* The link that leads to a reading, or to the end of its list. */
static known **find(const uint32_t at[3])
{
    known **link = &table[(at[0] * 37 + at[1] * 5 + at[2]) % BUCKETS_OF_FACTS];
    while (*link && memcmp((*link)->at, at, sizeof (*link)->at))
        link = &(*link)->next;
    return link;
}

static unsigned long complete(void) { return AgendaData(environment)->NumberOfActivations; }

static struct fact *make_fact(const uint32_t at[3])
{
    long long slot[4] = {at[0], at[1], at[2], (long long)at[0] - 1};
    struct fact *f = EnvCreateFact(environment, template_of_readings);
    for (int i = 0; i < SLOTS_OF_A_FACT; i++) {
        f->theProposition.theFields[i].type = INTEGER;
        f->theProposition.theFields[i].value = EnvAddLong(environment, slot[i]);
    }
    return EnvAssert(environment, f);
}

change matcher_add(uint32_t line, uint32_t column, uint32_t value)
{
    uint32_t at[3] = {line, column, value};
    known **link = find(at);
    if (*link)
        return (change){.refusal = 11};
    if (present == MOST_READINGS)
        return (change){.refusal = 13};
    unsigned long before = complete();
    known *k = *link = unused;
    unused = k->next;
    k->next = NULL;
    memcpy(k->at, at, sizeof at);
    k->fact = make_fact(at);
    return (change){0, ++present, 0, (unsigned)(complete() - before)};
}

change matcher_remove(uint32_t line, uint32_t column, uint32_t value)
{
    uint32_t at[3] = {line, column, value};
    known **link = find(at), *k = *link;
    if (!k)
        return (change){.refusal = 12};
    unsigned long before = complete();
    EnvRetract(environment, k->fact);
    *link = k->next;
    k->next = unused;
    unused = k;
    return (change){0, --present, 0, (unsigned)(before - complete())};
}

typedef struct { unsigned rule, length; uint32_t at[MOST_CONDITIONS][3]; } complaint;

static complaint complaints[2 * MOST_TOKENS];

static complaint taken_from(struct activation *a)
{
    struct partialMatch *match = EnvGetActivationBasis(environment, a);
    complaint c = {(unsigned)atoi(EnvGetActivationName(environment, a) + 1), match->bcount, {{0}}};
    for (unsigned i = 0; i < c.length; i++) {
        struct fact *f = (struct fact *)get_nth_pm_match(match, i)->matchingItem;
        for (int p = 0; p < 3; p++)
            c.at[i][p] = (uint32_t)ValueToLong(f->theProposition.theFields[p].value);
    }
    return c;
}

static int compare(const void *x, const void *y)
{
    const complaint *a = x, *b = y;
    if (a->rule != b->rule)
        return a->rule < b->rule ? -1 : 1;
    const uint32_t *p = a->at[0], *q = b->at[0], *end = p + 3 * a->length;
    while (p < end && *p == *q)
        p++, q++;
    return p == end ? 0 : *p < *q ? -1 : 1;
}

size_t matcher_complaints(void)
{
    size_t n = 0;
    for (struct activation *a = EnvGetNextActivation(environment, NULL); a; a = EnvGetNextActivation(environment, a))
        complaints[n++] = taken_from(a);
    qsort(complaints, n, sizeof complaints[0], compare);
    return n;
}

size_t matcher_line(size_t k, uint8_t *buffer, size_t length)
{
    (void)length;
    const complaint *c = &complaints[k];
    uint8_t *to = write_number(buffer, rule_of[c->rule].number);
    for (unsigned i = 0; i < c->length; i++)
        to = write_reading(to, c->at[i]);
    return (size_t)(write_wording(to, rule_of[c->rule].wording) - buffer);
}
