/*
 * A fixed page that its owner has left, and what PUNFIX makes of it. Guests 7 and 9 are in a page that is guest 7's, and guest 7 is
 * unmerged. PUNFIX makes the page guest 9's, which finds its words there and writes to it again. Then the page is fixed once more, and
 * guest 9 is unmerged too: nobody is left in it, and PUNFIX gives both frames, page and leaf, back to the host.
 *
 *     cc -std=c11 -Iinclude examples/c/stuck_page.c target/lib/libskorbilek.a -o target/stuck_page && target/stuck_page
 *
 * Every answer is compared with what the rules say (docs/CALLS.md). The exit status is 0 only if all are as they should be.
 */
#include "expect.h"
#include "skorbilek.h"

#include <inttypes.h>
#include <stdio.h>

enum { N = 8, M = 10, HOST = 0, OWNER = 7, OTHER = 9, NOBODY = 0 };
enum { MERGEABLE = SKORBILEK_TYPE_MERGEABLE, LEAF_TYPE = SKORBILEK_TYPE_LEAF };

static const uint64_t PAGE = 0x1000, LEAF = 0x3000;                     /* frames 1 and 3 */
static const uint64_t OWNER_ADDRESS = 0x50000, OTHER_ADDRESS = 0x60000; /* where each guest has its page */

/* A table starts with zeros; memory may hold anything. */
static uint64_t table[SKORBILEK_ENTRY_WORDS * N];
static uint64_t memory[SKORBILEK_FRAME_WORDS * M];

/* A slice of each, as the calls take them. */
#define TABLE table, sizeof table / sizeof *table
#define MEMORY memory, sizeof memory / sizeof *memory

/* The guest writes a value to word 3 of its page. */
static void put(uint64_t guest, uint64_t gpa, uint64_t hpa, uint64_t value)
{
    expect(0, "the guest writes to its page", skorbilek_write(TABLE, MEMORY, guest, gpa, hpa, MERGEABLE, MERGEABLE, 3, value));
}

/* The guest finds this value in word 3 of its page. */
static void finds(uint64_t guest, uint64_t gpa, uint64_t hpa, uint64_t value)
{
    skorbilek_answer read = skorbilek_read(TABLE, MEMORY, guest, gpa, hpa, MERGEABLE, MERGEABLE, 3);
    printf("  guest %" PRIu64 " reads %" PRIu64 "\n", guest, read.value);
    faults += read.kind != SKORBILEK_WORD || read.value != value;
}

/* The host gives a frame to a guest, which opens it as its page at gpa and writes 42 to it. */
static void give(uint64_t guest, uint64_t gpa, uint64_t hpa)
{
    expect(0, "the host gives a frame to a guest", skorbilek_rmpupdate(TABLE, MEMORY, HOST, hpa, gpa, guest, MERGEABLE));
    expect(0, "the guest opens it", skorbilek_pvalidate(TABLE, MEMORY, guest, gpa, hpa, MERGEABLE));
    put(guest, gpa, hpa, 42);
}

static void fix(void)
{
    expect(0, "the host makes frame 3 a leaf", skorbilek_rmpupdate(TABLE, MEMORY, HOST, LEAF, 0, 0, LEAF_TYPE));
    expect(0, "and fixes the page in frame 1 with it", skorbilek_pfix(TABLE, MEMORY, HOST, PAGE, LEAF));
}

/* The host unfixes the page, and is told whose it is now. */
static void unfix(uint64_t guest)
{
    skorbilek_answer unfixed = skorbilek_punfix(TABLE, MEMORY, HOST, PAGE);
    expect(0, "the host unfixes the page", unfixed);
    if (unfixed.asid == NOBODY)
        puts("  it is nobody's now");
    else
        printf("  it is guest %" PRIu64 "'s now\n", unfixed.asid);
    faults += unfixed.kind != SKORBILEK_UNFIXED || unfixed.asid != guest;
}

/* The frame is the host's again: SHARED, with nothing of what it held. */
static void is_free(uint64_t hpa)
{
    const uint64_t *words = skorbilek_page_read(TABLE, MEMORY, HOST, 0, hpa);
    if (words == NULL) {
        puts("  FAULT: the host can't read the frame");
        faults++;
        return;
    }
    for (int i = 0; i < SKORBILEK_FRAME_WORDS; i++)
        faults += words[i] != 0;
    printf("  frame %" PRIu64 " is the host's again\n", hpa / SKORBILEK_FRAME_BYTES);
}

int main(void)
{
    puts("Guests 7 and 9 have equal pages, and the host merges them:");
    give(OWNER, OWNER_ADDRESS, PAGE);
    give(OTHER, OTHER_ADDRESS, 0x2000);
    fix();
    expect(0, "it merges guest 9's page into that", skorbilek_pmerge(TABLE, MEMORY, HOST, PAGE, 0x2000));
    expect(SKORBILEK_REFUSAL_STILL_SHARED, "it unfixes the page, which two guests are in", skorbilek_punfix(TABLE, MEMORY, HOST, PAGE));

    puts("The owner leaves, and the page goes to the guest that is left:");
    expect(0, "guest 7 is unmerged into frame 4", skorbilek_punmerge(TABLE, MEMORY, HOST, PAGE, 0x4000, OWNER));
    unfix(OTHER);
    is_free(LEAF);
    finds(OTHER, OTHER_ADDRESS, PAGE, 42);
    put(OTHER, OTHER_ADDRESS, PAGE, 43);
    finds(OTHER, OTHER_ADDRESS, PAGE, 43);
    finds(OWNER, OWNER_ADDRESS, 0x4000, 42);

    puts("The page is fixed again, and the last guest leaves:");
    fix();
    expect(0, "guest 9 is unmerged into frame 2", skorbilek_punmerge(TABLE, MEMORY, HOST, PAGE, 0x2000, OTHER));
    unfix(NOBODY);
    is_free(PAGE);
    is_free(LEAF);
    finds(OTHER, OTHER_ADDRESS, 0x2000, 43);

    puts(faults == 0 ? "No page is stuck." : "FAULT");
    return faults == 0 ? 0 : 1;
}
