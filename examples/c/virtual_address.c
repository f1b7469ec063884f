/*
 * A guest that names its pages by virtual address. The host builds its page tables, which lead from guest addresses to frames, and gives
 * the guest frames; the guest opens them and builds its own page tables, which lead from virtual addresses to guest addresses. From then on
 * the guest says a virtual address and no more: the library walks both. The guest accepts a page this way, writes to it and reads it. Then
 * it names an address that its tables do not have, and the host's tables send it to a frame that the host has filled.
 *
 *     cc -std=c11 -Iinclude examples/c/virtual_address.c target/lib/libskorbilek.a -o target/virtual_address && target/virtual_address
 *
 * Every answer is compared with what the rules say (docs/CALLS.md). The exit status is 0 only if all are as they should be.
 */
#include "expect.h"
#include "skorbilek.h"

#include <inttypes.h>
#include <stdio.h>

enum { N = 12, M = 12, HOST = 0, GUEST = 7, LEVELS = 4 };
enum { SHARED = SKORBILEK_TYPE_SHARED, PRIVATE = SKORBILEK_TYPE_PRIVATE };

/* The page tables, from the top down: the host's are in frames 1 to 4, and the guest's in frames 5 to 8, at guest addresses of its own. */
static const uint64_t HOST_TABLES[LEVELS] = {0x1000, 0x2000, 0x3000, 0x4000};
static const uint64_t GUEST_TABLES[LEVELS] = {0x10000, 0x11000, 0x12000, 0x13000};
static const uint64_t GUEST_FRAMES[LEVELS] = {0x5000, 0x6000, 0x7000, 0x8000};

static const uint64_t VIRTUAL = 0x7f1234567000; /* the page's virtual address, */
static const uint64_t PAGE = 0x50000;           /* its guest address, */
static const uint64_t FRAME = 0x9000;           /* and its frame */

/* A table starts with zeros, so that all frames are SHARED; memory may hold anything. Here it is zeros, so that no page table has an entry
   before one is written. */
static uint64_t table[SKORBILEK_ENTRY_WORDS * N];
static uint64_t memory[SKORBILEK_FRAME_WORDS * M];

/* A slice of each, as the calls take them. */
#define TABLE table, sizeof table / sizeof *table
#define MEMORY memory, sizeof memory / sizeof *memory

/* What a call by virtual address takes before that: the guest, its top table with the type, and the host's top table. */
#define WALKER GUEST, GUEST_TABLES[0], PRIVATE, HOST_TABLES[0]

/* An entry of a page table: present in bit 0, the address in bits 51:12, the type in bits 53:52. */
static uint64_t entry(uint64_t address, uint64_t type) { return type << 52 | address | 1; }

/* Which entry of a table is an address's: nine bits of it, 47:39 at level 0, the top, to 20:12 at level 3. */
static uint64_t index_at(int level, uint64_t address) { return address >> (39 - 9 * level) & 511; }

/* The host writes an entry: its tables are SHARED frames. */
static void host_entry(int level, uint64_t gpa, uint64_t word)
{
    expect(0, "the host writes an entry",
           skorbilek_write(TABLE, MEMORY, HOST, 0, HOST_TABLES[level], SHARED, SHARED, index_at(level, gpa), word));
}

/* The guest writes an entry: its tables are its own pages. It can't do that by virtual address before they are built. */
static void guest_entry(int level, uint64_t va, uint64_t word)
{
    expect(0, "the guest writes an entry",
           skorbilek_write(TABLE, MEMORY, GUEST, GUEST_TABLES[level], GUEST_FRAMES[level], PRIVATE, PRIVATE, index_at(level, va), word));
}

/* The host's upper three tables, which lead to the last one. That has an entry for each page of the guest, written as pages are given. */
static void build_host_tables(void)
{
    for (int level = 0; level < LEVELS - 1; level++)
        host_entry(level, PAGE, entry(HOST_TABLES[level + 1], SHARED));
}

/* The host gives a frame to the guest at gpa, and its tables say so. */
static void give(uint64_t gpa, uint64_t hpa)
{
    expect(0, "the host gives a frame to the guest", skorbilek_rmpupdate(TABLE, MEMORY, HOST, hpa, gpa, GUEST, PRIVATE));
    host_entry(LEVELS - 1, gpa, entry(hpa, PRIVATE));
}

/* The guest opens the pages of its tables, and writes the entries that lead from the virtual address to the page. */
static void build_guest_tables(void)
{
    for (int level = 0; level < LEVELS; level++) {
        give(GUEST_TABLES[level], GUEST_FRAMES[level]);
        expect(0, "the guest opens it", skorbilek_pvalidate(TABLE, MEMORY, GUEST, GUEST_TABLES[level], GUEST_FRAMES[level], PRIVATE));
    }
    for (int level = 0; level < LEVELS; level++)
        guest_entry(level, VIRTUAL, entry(level < LEVELS - 1 ? GUEST_TABLES[level + 1] : PAGE, PRIVATE));
}

/* Where the virtual address leads. */
static void walk(void)
{
    skorbilek_mapping to = skorbilek_walk(TABLE, MEMORY, WALKER, VIRTUAL);
    printf("  %#" PRIx64 " leads to the guest address %#" PRIx64 ", in the frame at %#" PRIx64 "\n", VIRTUAL, to.gpa, to.hpa);
    faults += to.refusal != 0 || to.reason != 0 || to.gpa != PAGE || to.hpa != FRAME || to.gtype != PRIVATE || to.ntype != PRIVATE;
}

/* The guest accepts the page, writes 42 to its word 0 and reads it. Each answer names the guest address. */
static void use(void)
{
    skorbilek_answer opened = skorbilek_pvalidate_va(TABLE, MEMORY, WALKER, VIRTUAL, PRIVATE);
    expect(0, "the guest opens the page", opened);
    skorbilek_answer written = skorbilek_write_va(TABLE, MEMORY, WALKER, VIRTUAL, 0, 42);
    expect(0, "the guest writes 42 to it", written);
    skorbilek_answer read = skorbilek_read_va(TABLE, MEMORY, WALKER, VIRTUAL, 0);
    printf("  the guest reads %" PRIu64 ", at the guest address %#" PRIx64 "\n", read.value, read.gpa);
    faults += opened.kind != SKORBILEK_OPENED || opened.gpa != PAGE;
    faults += written.kind != SKORBILEK_DONE || written.gpa != PAGE;
    faults += read.kind != SKORBILEK_WORD || read.gpa != PAGE || read.value != 42;
}

/* The host's tables send the page to frame 10, where the host has put 41. */
static void send_elsewhere(void)
{
    const uint64_t elsewhere = 0xa000;
    expect(0, "the host writes 41 to frame 10", skorbilek_write(TABLE, MEMORY, HOST, 0, elsewhere, SHARED, SHARED, 0, 41));
    host_entry(LEVELS - 1, PAGE, entry(elsewhere, PRIVATE));
    expect(SKORBILEK_REFUSAL_TYPE, "the guest reads the page", skorbilek_read_va(TABLE, MEMORY, WALKER, VIRTUAL, 0));
    host_entry(LEVELS - 1, PAGE, entry(FRAME, PRIVATE));
}

int main(void)
{
    puts("The host builds its page tables:");
    build_host_tables();
    puts("It gives guest 7 four frames, and the guest builds its page tables there:");
    build_guest_tables();
    puts("The host gives the guest a page, and the guest names it by its virtual address:");
    give(PAGE, FRAME);
    walk();
    use();
    puts("The guest names the next page, which its tables do not have:");
    expect(SKORBILEK_REFUSAL_ABSENT_ENTRY, "the guest reads it", skorbilek_read_va(TABLE, MEMORY, WALKER, VIRTUAL + 0x1000, 0));
    puts("The host's tables send the page to another frame:");
    send_elsewhere();
    puts("They send it to the right one again:");
    skorbilek_answer read = skorbilek_read_va(TABLE, MEMORY, WALKER, VIRTUAL, 0);
    printf("  the guest reads %" PRIu64 "\n", read.value);
    faults += read.kind != SKORBILEK_WORD || read.value != 42;

    puts(faults == 0 ? "The guest finds its page, or is refused." : "FAULT");
    return faults == 0 ? 0 : 1;
}
