/*
 * The entries of docs/CALLS.md, 'What is bad in an entry', through the library: `entries.inc` has them, as tests/entries_in_c.awk writes
 * them. Every two of them are put into frames 0 and 1 of a table of N = 8, in both orders, and every call is made on these frames.
 */
#include <stdio.h>
#include <string.h>

#include "skorbilek.h"

enum { N = 8, M = 10, GUEST = 7, MERGEABLE = SKORBILEK_TYPE_MERGEABLE };

typedef struct entry {
    uint64_t word0, word1;
    uint64_t reason; /* what is bad in it; 0 for nothing */
} entry;

static const entry ENTRIES[] = {
#include "entries.inc"
};

static uint64_t table[SKORBILEK_ENTRY_WORDS * N];
static uint64_t memory[SKORBILEK_FRAME_WORDS * M];
static uint64_t before[SKORBILEK_ENTRY_WORDS * N];
static const uint64_t page[SKORBILEK_FRAME_WORDS];

#define TABLE table, sizeof table / sizeof *table
#define MEMORY memory, sizeof memory / sizeof *memory

/* How many calls name frame 0 alone, frame 0 and then frame 1, and frame 1 and then frame 0. CENSUS meets both, frame 0 first. */
enum { ONE = 7, TWO = ONE + 4, CALLS = TWO + 3 };

/* The arguments are such that nothing is refused before the entries are looked at. */
static skorbilek_answer made(int call)
{
    switch (call) {
    case 0: return skorbilek_rmpupdate(TABLE, MEMORY, 0, 0, 0, 0, 0);
    case 1: return skorbilek_pvalidate(TABLE, MEMORY, GUEST, 0x50000, 0, MERGEABLE);
    case 2: return skorbilek_punfix(TABLE, MEMORY, 0, 0);
    case 3: return skorbilek_read(TABLE, MEMORY, GUEST, 0x50000, 0, MERGEABLE, MERGEABLE, 0);
    case 4: return skorbilek_write(TABLE, MEMORY, 0, 0, 0, 0, 0, 0, 1);
    case 5: return skorbilek_page_check(TABLE, MEMORY, 0, 0, 0);
    case 6: return skorbilek_page_write(TABLE, MEMORY, 0, 0, 0, page, SKORBILEK_FRAME_WORDS);
    case 7: return skorbilek_census(TABLE, MEMORY, GUEST);
    case 8: return skorbilek_pfix(TABLE, MEMORY, 0, 0, 0x1000);
    case 9: return skorbilek_pmerge(TABLE, MEMORY, 0, 0, 0x1000);
    case 10: return skorbilek_punmerge(TABLE, MEMORY, 0, 0, 0x1000, GUEST);
    case 11: return skorbilek_pfix(TABLE, MEMORY, 0, 0x1000, 0);
    case 12: return skorbilek_pmerge(TABLE, MEMORY, 0, 0x1000, 0);
    default: return skorbilek_punmerge(TABLE, MEMORY, 0, 0x1000, 0, GUEST);
    }
}

/* The reason of the bad entry that a call meets first; 0 if it meets none. */
static uint64_t reason(int call, const entry *zero, const entry *one)
{
    const entry *const first = call < TWO ? zero : one;
    const entry *const second = call < TWO ? one : zero;
    return call < ONE || first->reason != 0 ? first->reason : second->reason;
}

/* Whether a call on these two entries answers what the document says: 5 with the reason and no change, or anything but 5. */
static int is_as_said(int call, const entry *zero, const entry *one)
{
    const skorbilek_answer bad = {.refusal = SKORBILEK_REFUSAL_BAD_ENTRY, .reason = reason(call, zero, one)};
    const uint64_t entries[] = {zero->word0, zero->word1, one->word0, one->word1, 0, 0, 0x30000}; /* frame 3 is a LEAF */
    skorbilek_answer given;
    memset(table, 0, sizeof table);
    memset(memory, 0, sizeof memory);
    memcpy(table, entries, sizeof entries);
    memcpy(before, table, sizeof table);
    given = made(call);
    if (bad.reason == 0)
        return given.refusal != SKORBILEK_REFUSAL_BAD_ENTRY && given.reason == 0;
    return memcmp(&given, &bad, sizeof bad) == 0 && memcmp(table, before, sizeof table) == 0;
}

/* Makes every call on these two entries, and counts those that are wrong. */
static int wrong_calls(const entry *zero, const entry *one)
{
    int wrong = 0;
    for (int call = 0; call < CALLS; call++) {
        if (!is_as_said(call, zero, one)) {
            wrong++;
            printf("docs/CALLS.md, (%llx, %llx) and then (%llx, %llx), call %d: not as said\n", (unsigned long long)zero->word0,
                   (unsigned long long)zero->word1, (unsigned long long)one->word0, (unsigned long long)one->word1, call);
        }
    }
    return wrong;
}

int main(void)
{
    const int entries = sizeof ENTRIES / sizeof *ENTRIES;
    int wrong = 0;
    for (int zero = 0; zero < entries; zero++)
        for (int one = 0; one < entries; one++)
            wrong += wrong_calls(&ENTRIES[zero], &ENTRIES[one]);
    printf("%d entries\n", entries);
    return wrong != 0;
}
