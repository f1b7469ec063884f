/*
 * What a service desk does with a table that gives refusal 5: it looks at every frame, and says which rule of an entry is broken first. The
 * calls never leave such a table behind. Here four entries are damaged by hand.
 *
 *     cc -std=c11 -Iinclude examples/c/bad_entries.c target/lib/libskorbilek.a -o target/bad_entries && target/bad_entries
 *
 * Every answer is compared with what the rules say (docs/CALLS.md). The exit status is 0 only if all are as they should be.
 */
#include "skorbilek.h"

#include <inttypes.h>
#include <stdio.h>

enum { N = 8, M = 10, HOST = 0, GUEST = 7 };

static uint64_t memory[SKORBILEK_FRAME_WORDS * M];
static uint64_t table[SKORBILEK_ENTRY_WORDS * N] = {
    0,        0,       /* frame 0: SHARED */
    0x60007,  0x50000, /* frame 1: guest 7's page, open */
    0xa0007,  0x3000,  /* frame 2: FIXED and not VALIDATED */
    0x30000,  0,       /* frame 3: a LEAF */
    0x60007,  0x50800, /* frame 4: guest 7's page, at an address that is none */
    0x10000,  0x60000, /* frame 5: a PRIVATE page of no guest */
    0x160009, 0x60000, /* frame 6: guest 9's page, and bit 20 */
    0x20009,  0x61000, /* frame 7: guest 9's page, not open */
};

/* What the rules give for each frame. */
static const uint64_t EXPECTED[N] = {
    0, 0, SKORBILEK_REASON_FLAGS, 0, SKORBILEK_REASON_ADDRESS, SKORBILEK_REASON_ASID, SKORBILEK_REASON_SPARE_BITS, 0,
};

/* A slice of each, as the calls take them. */
#define TABLE table, sizeof table / sizeof *table
#define MEMORY memory, sizeof memory / sizeof *memory

static int faults = 0;

static const char *in_words(uint64_t reason)
{
    switch (reason) {
    case SKORBILEK_REASON_SPARE_BITS:
        return "spare bits of word 0 are set";
    case SKORBILEK_REASON_ASID:
        return "the ASID does not fit the type";
    case SKORBILEK_REASON_FLAGS:
        return "VALIDATED and FIXED do not fit";
    case SKORBILEK_REASON_ADDRESS:
        return "word 1 does not fit";
    default:
        return "nothing is bad";
    }
}

/* What is bad in the entry of a frame: skorbilek_page_check changes nothing, and looks at the entry before it looks at the type. */
static void look_at(uint64_t frame)
{
    const uint64_t *const entry = table + SKORBILEK_ENTRY_WORDS * frame;
    skorbilek_answer checked = skorbilek_page_check(TABLE, MEMORY, HOST, 0, SKORBILEK_FRAME_BYTES * frame);
    printf("  frame %" PRIu64 ": %6" PRIx64 " %5" PRIx64 "  %s\n", frame, entry[0], entry[1], in_words(checked.reason));
    faults += (checked.refusal == SKORBILEK_REFUSAL_BAD_ENTRY) != (EXPECTED[frame] != 0);
    faults += checked.reason != EXPECTED[frame];
}

/* A call that is refused with 5 has the reason at hand. */
static void refused(const char *what, skorbilek_answer answer, uint64_t reason)
{
    printf("  %-42s refused with %" PRIu64 ": %s\n", what, answer.refusal, in_words(answer.reason));
    faults += answer.refusal != SKORBILEK_REFUSAL_BAD_ENTRY || answer.reason != reason;
}

int main(void)
{
    puts("The entries, word 0 and word 1 in hex:");
    for (uint64_t frame = 0; frame < N; frame++)
        look_at(frame);
    puts("Calls on them:");
    refused("a census, which meets frame 2 first", skorbilek_census(TABLE, MEMORY, GUEST), SKORBILEK_REASON_FLAGS);
    refused("frame 6 merged into frame 2", skorbilek_pmerge(TABLE, MEMORY, HOST, 0x2000, 0x6000), SKORBILEK_REASON_FLAGS);
    refused("frame 2 merged into frame 6", skorbilek_pmerge(TABLE, MEMORY, HOST, 0x6000, 0x2000), SKORBILEK_REASON_SPARE_BITS);
    puts(faults == 0 ? "Four entries are bad." : "FAULT");
    return faults == 0 ? 0 : 1;
}
