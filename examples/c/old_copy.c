/*
 * The attack that the monitor is there for, through the library. A numbering box gives each lamb an ear tag: guest 7 keeps the last
 * number in word 0 of its page at 0x50000. Host software merges equal pages, keeps an old copy of the counter page, and tries to put
 * it under the same guest address, so that a number would be given twice.
 *
 *     cc -std=c11 -Iinclude examples/c/old_copy.c target/lib/libskorbilek.a -o target/old_copy && target/old_copy
 *
 * Every answer is compared with what the rules say (docs/CALLS.md). The exit status is 0 only if all are as they should be and no number
 * was given twice.
 */
#include "expect.h"
#include "skorbilek.h"

#include <inttypes.h>
#include <stdio.h>

enum { N = 8, M = 10, HOST = 0, GUEST = 7, HELPER = 9 };
enum { SHARED = SKORBILEK_TYPE_SHARED, MERGEABLE = SKORBILEK_TYPE_MERGEABLE, LEAF = SKORBILEK_TYPE_LEAF };

static const uint64_t COUNTER = 0x50000; /* the guest's address of its counter page */

/* A table starts with zeros; memory may hold anything. */
static uint64_t table[SKORBILEK_ENTRY_WORDS * N];
static uint64_t memory[SKORBILEK_FRAME_WORDS * M];

/* A slice of each, as the calls take them. */
#define TABLE table, sizeof table / sizeof *table
#define MEMORY memory, sizeof memory / sizeof *memory

static uint64_t last_number = 0;

/* The host gives a frame to a guest, which opens it as its page at gpa and writes the counter's value to word 0. */
static void give(uint64_t guest, uint64_t gpa, uint64_t hpa, uint64_t value)
{
    expect(0, "the host gives a frame to a guest", skorbilek_rmpupdate(TABLE, MEMORY, HOST, hpa, gpa, guest, MERGEABLE));
    expect(0, "the guest opens it", skorbilek_pvalidate(TABLE, MEMORY, guest, gpa, hpa, MERGEABLE));
    expect(0, "the guest writes to it",
           skorbilek_write(TABLE, MEMORY, guest, gpa, hpa, MERGEABLE, MERGEABLE, 0, value));
}

/* The guest numbers a lamb: it reads its counter where the host's tables send it, in the frame at hpa, and counts on. */
static void number_a_lamb(uint64_t hpa, uint64_t ntype, uint64_t refusal, const char *why)
{
    skorbilek_answer read = skorbilek_read(TABLE, MEMORY, GUEST, COUNTER, hpa, MERGEABLE, ntype, 0);
    expect(refusal, why, read);
    if (read.kind != SKORBILEK_WORD)
        return;
    uint64_t number = read.value + 1;
    expect(0, "the guest counts on",
           skorbilek_write(TABLE, MEMORY, GUEST, COUNTER, hpa, MERGEABLE, ntype, 0, number));
    printf("  a lamb gets number %" PRIu64 "\n", number);
    if (number <= last_number) {
        printf("  FAULT: this number was given before\n");
        faults++;
    }
    last_number = number;
}

/* While the counter is 1, the host makes copies of the page in every way that it can. */
static void keep_copies(void)
{
    puts("The host keeps what copies it can get:");
    expect(6, "it reads the page", skorbilek_read(TABLE, MEMORY, HOST, 0, 0x1000, SHARED, SHARED, 0));
    expect(0, "it guesses the words and writes them to frame 2",
           skorbilek_write(TABLE, MEMORY, HOST, 0, 0x2000, SHARED, SHARED, 0, 1));
    expect(0, "and to frame 8, which has no entry",
           skorbilek_write(TABLE, MEMORY, HOST, 0, 0x8000, SHARED, SHARED, 0, 1));
    give(HELPER, COUNTER, 0x3000, 1);
    expect(0, "it makes frame 4 a leaf", skorbilek_rmpupdate(TABLE, MEMORY, HOST, 0x4000, 0, 0, LEAF));
    expect(0, "it fixes its helper's page with it", skorbilek_pfix(TABLE, MEMORY, HOST, 0x3000, 0x4000));
    expect(0, "it merges the counter page into that", skorbilek_pmerge(TABLE, MEMORY, HOST, 0x3000, 0x1000));
    expect(0, "and unmerges it again: frame 3 keeps the old words",
           skorbilek_punmerge(TABLE, MEMORY, HOST, 0x3000, 0x1000, GUEST));
    give(GUEST, 0x60000, 0x5000, 1);
}

/* After the guest has counted on, the host puts each copy under the guest's address. */
static void put_copies(void)
{
    puts("The host puts the old copies under the counter's address:");
    number_a_lamb(0x2000, SHARED, 6, "the guest reads through frame 2, SHARED to the host");
    number_a_lamb(0x8000, MERGEABLE, 6, "the guest reads through frame 8");
    number_a_lamb(0x3000, MERGEABLE, 13, "the guest reads through the merged page in frame 3");
    expect(16, "the host merges the counter page once more", skorbilek_pmerge(TABLE, MEMORY, HOST, 0x3000, 0x1000));
    expect(0, "it gives frame 2 to the guest", skorbilek_rmpupdate(TABLE, MEMORY, HOST, 0x2000, COUNTER, GUEST, MERGEABLE));
    number_a_lamb(0x2000, MERGEABLE, 9, "the guest reads through frame 2");
    expect(0, "it moves the guest's other page to this address",
           skorbilek_rmpupdate(TABLE, MEMORY, HOST, 0x5000, COUNTER, GUEST, MERGEABLE));
    number_a_lamb(0x5000, MERGEABLE, 9, "the guest reads through frame 5");
}

int main(void)
{
    puts("Guest 7 has a counter page, in frame 1, and numbers its first lamb:");
    give(GUEST, COUNTER, 0x1000, 0);
    number_a_lamb(0x1000, MERGEABLE, 0, "the guest reads its counter");
    keep_copies();
    puts("The guest numbers a lamb:");
    number_a_lamb(0x1000, MERGEABLE, 0, "the guest reads its counter");
    put_copies();
    puts("The host gives up, and the guest numbers a lamb:");
    number_a_lamb(0x1000, MERGEABLE, 0, "the guest reads its counter");
    puts(faults == 0 && last_number == 3 ? "Three lambs, three numbers." : "FAULT");
    return faults == 0 && last_number == 3 ? 0 : 1;
}
