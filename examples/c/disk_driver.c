/*
 * A host's disk driver over the library. It puts sectors of 4,096 bytes into SHARED frames, a page at a time, and guests read them there.
 * The host's software then gives such a frame to a guest while the driver still has a sector for it: that sector must not get into the
 * guest's page, and it doesn't.
 *
 *     cc -std=c11 -Iinclude examples/c/disk_driver.c target/lib/libskorbilek.a -o target/disk_driver && target/disk_driver
 *
 * Every answer is compared with what the rules say (docs/CALLS.md). The exit status is 0 only if all are as they should be.
 */
#include "expect.h"
#include "skorbilek.h"

#include <inttypes.h>
#include <stdio.h>

enum { N = 8, M = 10, HOST = 0, GUEST = 7, PRIVATE = SKORBILEK_TYPE_PRIVATE };
enum { SECTORS = 4, SECTOR_WORDS = SKORBILEK_FRAME_WORDS };

static const uint64_t BUFFER = 0x2000;      /* the frame that the driver puts sectors into: frame 2 */
static const uint64_t GUEST_PAGE = 0x50000; /* a guest's address. A SHARED access names one, and nothing comes of it */

/* A table starts with zeros, so that all frames are SHARED; memory may hold anything. */
static uint64_t table[SKORBILEK_ENTRY_WORDS * N];
static uint64_t memory[SKORBILEK_FRAME_WORDS * M];
static uint64_t disk[SECTORS][SECTOR_WORDS];

/* A slice of each, as the calls take them. */
#define TABLE table, sizeof table / sizeof *table
#define MEMORY memory, sizeof memory / sizeof *memory

/* The driver: one call for a sector, where it would be 512 by skorbilek_write. */
static skorbilek_answer load(int sector, uint64_t hpa)
{
    return skorbilek_page_write(TABLE, MEMORY, HOST, 0, hpa, disk[sector], SECTOR_WORDS);
}

/* The guest takes a sector from a frame: adds up its words where they lie. The pointer is used at once and not kept. */
static void take(uint64_t hpa, uint64_t sum)
{
    uint64_t added = 0;
    const uint64_t *words = skorbilek_page_read(TABLE, MEMORY, GUEST, GUEST_PAGE, hpa);
    if (words == NULL) {
        puts("  FAULT: the guest can't read the page");
        faults++;
        return;
    }
    for (int i = 0; i < SECTOR_WORDS; i++)
        added += words[i];
    printf("  the guest adds up the page to %" PRIu64 "\n", added);
    faults += added != sum;
}

/* The driver has a sector for a frame that is the guest's page by now. */
static void load_too_late(void)
{
    expect(SKORBILEK_REFUSAL_TYPE, "the driver loads sector 3 into it", load(3, BUFFER));
    if (skorbilek_page_read(TABLE, MEMORY, HOST, 0, BUFFER) != NULL) {
        puts("  FAULT: the host can read the guest's page");
        faults++;
    }
    /* No pointer: skorbilek_page_check tells why. */
    expect(SKORBILEK_REFUSAL_TYPE, "the host reads it", skorbilek_page_check(TABLE, MEMORY, HOST, 0, BUFFER));
}

int main(void)
{
    for (int sector = 0; sector < SECTORS; sector++)
        for (int i = 0; i < SECTOR_WORDS; i++)
            disk[sector][i] = (uint64_t)sector;

    puts("The driver loads sectors into frame 2, and guest 7 reads them there:");
    expect(0, "the driver loads sector 1", load(1, BUFFER));
    take(BUFFER, 1 * SECTOR_WORDS);
    expect(0, "the driver loads sector 2", load(2, BUFFER));
    take(BUFFER, 2 * SECTOR_WORDS);

    puts("The host gives frame 2 to the guest, which opens it and writes 42 to its word 0:");
    expect(0, "the host gives it", skorbilek_rmpupdate(TABLE, MEMORY, HOST, BUFFER, GUEST_PAGE, GUEST, PRIVATE));
    expect(0, "the guest opens it", skorbilek_pvalidate(TABLE, MEMORY, GUEST, GUEST_PAGE, BUFFER, PRIVATE));
    expect(0, "the guest writes 42", skorbilek_write(TABLE, MEMORY, GUEST, GUEST_PAGE, BUFFER, PRIVATE, PRIVATE, 0, 42));
    load_too_late();
    skorbilek_answer read = skorbilek_read(TABLE, MEMORY, GUEST, GUEST_PAGE, BUFFER, PRIVATE, PRIVATE, 0);
    printf("  the guest reads %" PRIu64 "\n", read.value);
    faults += read.kind != SKORBILEK_WORD || read.value != 42;

    puts(faults == 0 ? "The guest's page is its own." : "FAULT");
    return faults == 0 ? 0 : 1;
}
