/*
 * Whole shared pages from C and C++: every refusal that they can meet, and what they touch where they are accepted. What has to be
 * answered is worked out by hand from the rules. The exit status is 0 only if every answer is right.
 */
#include "skorbilek.h"

#include <stdio.h>
#include <string.h>

enum { N = 8, M = 10, PAGE = SKORBILEK_FRAME_WORDS };

/* Lengths in words: those of most calls, and the greatest that a call is lent, which are too great. */
enum {
    TABLE_WORDS = SKORBILEK_ENTRY_WORDS * N,
    MEMORY_WORDS = PAGE * M,
    GREATEST_TABLE = SKORBILEK_ENTRY_WORDS * SKORBILEK_MAX_ENTRIES,
    GREATEST_MEMORY = PAGE * SKORBILEK_MAX_FRAMES
};

static const uint64_t NO_ADDRESS = UINT64_C(1) << 52;
static const uint64_t LAST_ADDRESS = (UINT64_C(1) << 52) - 4096;

/* The entries that every case starts with. Frames 8 and 9 have none. */
static uint64_t entries[TABLE_WORDS] = {
    0,        0,       /* frame 0: SHARED */
    0x50007,  0x50000, /* frame 1: guest 7's, PRIVATE and open */
    0x60007,  0x51000, /* frame 2: guest 7's, MERGEABLE and open */
    0xe0007,  0x4000,  /* frame 3: guest 7's, fixed, with its leaf in frame 4 */
    0x30000,  0,       /* frame 4: a LEAF */
    0x10007,  0x52000, /* frame 5: guest 7's, not open */
    0x100000, 0,       /* frame 6: not well formed, for the reason below */
    0,        0,       /* frame 7: SHARED */
};

static uint64_t reason = SKORBILEK_REASON_SPARE_BITS;

static uint64_t table[GREATEST_TABLE + SKORBILEK_ENTRY_WORDS];
static uint64_t memory[GREATEST_MEMORY + PAGE];
static uint64_t before[MEMORY_WORDS];
static uint64_t words[2 * PAGE];

static int cases = 0;
static int faults = 0;

/* The table and memory that every case starts with, and a page to write: no two words of memory and page are the same. */
static void start(void)
{
    uint64_t i;
    memcpy(table, entries, sizeof entries);
    for (i = 0; i < MEMORY_WORDS; i++)
        memory[i] = before[i] = i + 1;
    for (i = 0; i < 2 * PAGE; i++)
        words[i] = ~i;
    cases++;
}

static void right(int is_right, const char *what, uint64_t caller, uint64_t gpa, uint64_t hpa)
{
    if (!is_right) {
        printf("%s, caller %#llx, gpa %#llx, hpa %#llx\n", what, (unsigned long long)caller, (unsigned long long)gpa,
               (unsigned long long)hpa);
        faults++;
    }
}

/* It has this refusal and kind and nothing else, but that 5, which frame 6 alone gives, has its reason. */
static int is(skorbilek_answer a, uint64_t refusal, uint64_t kind)
{
    return a.refusal == refusal && a.kind == kind && a.asid == 0 && a.gpa == 0 && a.value == 0
           && a.reason == (refusal == SKORBILEK_REFUSAL_BAD_ENTRY ? reason : 0);
}

/* No word of the table, nor of the first M frames, was changed. */
static int is_unchanged(void)
{
    return memcmp(table, entries, sizeof entries) == 0 && memcmp(memory, before, sizeof before) == 0;
}

/* A page of so many words is not written, with this refusal. */
static void refuses_run(size_t t, size_t m, uint64_t caller, uint64_t gpa, uint64_t hpa, size_t count, uint64_t refusal)
{
    skorbilek_answer written;
    start();
    written = skorbilek_page_write(table, t, memory, m, caller, gpa, hpa, words, count);
    right(is(written, refusal, SKORBILEK_REFUSED), "page_write: not this refusal", caller, gpa, hpa);
    right(is_unchanged(), "page_write: refused, and changes a word", caller, gpa, hpa);
}

/* All three are refused with this number. */
static void refuses_lent(size_t t, size_t m, uint64_t caller, uint64_t gpa, uint64_t hpa, uint64_t refusal)
{
    skorbilek_answer checked;
    start();
    checked = skorbilek_page_check(table, t, memory, m, caller, gpa, hpa);
    right(is(checked, refusal, SKORBILEK_REFUSED), "page_check: not this refusal", caller, gpa, hpa);
    right(skorbilek_page_read(table, t, memory, m, caller, gpa, hpa) == NULL, "page_read: not refused", caller, gpa, hpa);
    refuses_run(t, m, caller, gpa, hpa, PAGE, refusal);
}

static void refuses(uint64_t caller, uint64_t gpa, uint64_t hpa, uint64_t refusal)
{
    refuses_lent(TABLE_WORDS, MEMORY_WORDS, caller, gpa, hpa, refusal);
}

/* All three are accepted: the page is this frame where it lies in memory, and no other frame is written. */
static void accepts(uint64_t caller, uint64_t gpa, uint64_t hpa, size_t frame)
{
    uint64_t *const page = memory + PAGE * frame;
    skorbilek_answer checked, written;
    start();
    checked = skorbilek_page_check(table, TABLE_WORDS, memory, MEMORY_WORDS, caller, gpa, hpa);
    right(is(checked, 0, SKORBILEK_DONE), "page_check: not accepted", caller, gpa, hpa);
    right(skorbilek_page_read(table, TABLE_WORDS, memory, MEMORY_WORDS, caller, gpa, hpa) == page, "page_read: not the frame", caller, gpa,
          hpa);
    written = skorbilek_page_write(table, TABLE_WORDS, memory, MEMORY_WORDS, caller, gpa, hpa, words, PAGE);
    right(is(written, 0, SKORBILEK_DONE), "page_write: not accepted", caller, gpa, hpa);
    right(memcmp(page, words, sizeof(uint64_t) * PAGE) == 0, "page_write: other words", caller, gpa, hpa);
    memcpy(page, before + PAGE * frame, sizeof(uint64_t) * PAGE);
    right(is_unchanged(), "page_write: changes another frame", caller, gpa, hpa);
}

/* Any party, at any address; and frames without an entry. */
static void accepted(void)
{
    accepts(0, 0, 0, 0);
    accepts(7, 0x50000, 0, 0);
    accepts(511, LAST_ADDRESS, 0x7000, 7);
    accepts(0, 0, 0x8000, 8);
    accepts(7, 0x50000, 0x9000, 9);
}

/* 1: sizes that no table and memory may have; and 1 comes before 2. */
static void geometry(void)
{
    static const size_t sizes[][2] = {
        {0, MEMORY_WORDS},
        {TABLE_WORDS - 1, MEMORY_WORDS},
        {TABLE_WORDS + 1, MEMORY_WORDS},
        {2 * (M + 1), MEMORY_WORDS},
        {GREATEST_TABLE + 2, GREATEST_MEMORY},
        {TABLE_WORDS, 0},
        {TABLE_WORDS, PAGE * (N - 1)},
        {TABLE_WORDS, MEMORY_WORDS - 1},
        {TABLE_WORDS, MEMORY_WORDS + 1},
        {TABLE_WORDS, GREATEST_MEMORY + PAGE},
    };
    size_t i;
    for (i = 0; i < sizeof sizes / sizeof *sizes; i++) {
        refuses_lent(sizes[i][0], sizes[i][1], 0, 0, 0, SKORBILEK_REFUSAL_GEOMETRY);
        refuses_lent(sizes[i][0], sizes[i][1], 512, 1, 1, SKORBILEK_REFUSAL_GEOMETRY);
        refuses_run(sizes[i][0], sizes[i][1], 0, 0, 0, PAGE - 1, SKORBILEK_REFUSAL_GEOMETRY);
    }
}

/* 2: each argument, and the run; and 2 comes before 4, 5 and 6. */
static void argument(void)
{
    static const uint64_t frames[] = {0, 0x9000, 0xa000, 0x6000, 0x1000}; /* else accepted twice, 4, 5 and 6 */
    static const size_t counts[] = {0, 1, PAGE - 1, PAGE + 1, 2 * PAGE};
    size_t i, j;
    for (i = 0; i < sizeof frames / sizeof *frames; i++) {
        refuses(512, 0, frames[i], SKORBILEK_REFUSAL_ARGUMENT);
        refuses(UINT64_MAX, 0, frames[i], SKORBILEK_REFUSAL_ARGUMENT);
        refuses(0, 1, frames[i], SKORBILEK_REFUSAL_ARGUMENT);
        refuses(0, NO_ADDRESS, frames[i], SKORBILEK_REFUSAL_ARGUMENT);
        refuses(0, 0, frames[i] + 8, SKORBILEK_REFUSAL_ARGUMENT);
        refuses(0, 0, frames[i] + NO_ADDRESS, SKORBILEK_REFUSAL_ARGUMENT);
        for (j = 0; j < sizeof counts / sizeof *counts; j++)
            refuses_run(TABLE_WORDS, MEMORY_WORDS, 0, 0, frames[i], counts[j], SKORBILEK_REFUSAL_ARGUMENT);
    }
}

/* 4, 5 and 6, for the host, the owner and another guest. */
static void frame(void)
{
    static const uint64_t callers[] = {0, 7, 9};
    size_t i;
    for (i = 0; i < sizeof callers / sizeof *callers; i++) {
        refuses(callers[i], 0x50000, 0xa000, SKORBILEK_REFUSAL_OUTSIDE);
        refuses(callers[i], 0x50000, LAST_ADDRESS, SKORBILEK_REFUSAL_OUTSIDE);
        refuses(callers[i], 0x50000, 0x6000, SKORBILEK_REFUSAL_BAD_ENTRY);
        refuses(callers[i], 0x50000, 0x1000, SKORBILEK_REFUSAL_TYPE);
        refuses(callers[i], 0x51000, 0x2000, SKORBILEK_REFUSAL_TYPE);
        refuses(callers[i], 0x53000, 0x3000, SKORBILEK_REFUSAL_TYPE);
        refuses(callers[i], 0, 0x4000, SKORBILEK_REFUSAL_TYPE);
        refuses(callers[i], 0x52000, 0x5000, SKORBILEK_REFUSAL_TYPE);
    }
}

/* 5 again, for each reason: an entry that breaks one rule, and, but for the last, one that breaks the next rule too. */
static void bad_entry(void)
{
    static const uint64_t bad[][3] = {
        {0x100000, 0, SKORBILEK_REASON_SPARE_BITS},
        {0x110000, 0x1000, SKORBILEK_REASON_SPARE_BITS},
        {0x10200, 0x1000, SKORBILEK_REASON_ASID},
        {0x40007, 0, SKORBILEK_REASON_ASID},
        {0xa0007, 0x3000, SKORBILEK_REASON_FLAGS},
        {0xa0007, 0x8000, SKORBILEK_REASON_FLAGS},
        {0xe0007, 0x8000, SKORBILEK_REASON_ADDRESS},
    };
    uint64_t *const entry = entries + SKORBILEK_ENTRY_WORDS * 6;
    size_t i;
    for (i = 0; i < sizeof bad / sizeof *bad; i++) {
        entry[0] = bad[i][0];
        entry[1] = bad[i][1];
        reason = bad[i][2];
        refuses(0, 0, 0x6000, SKORBILEK_REFUSAL_BAD_ENTRY);
        refuses(7, 0x50000, 0x6000, SKORBILEK_REFUSAL_BAD_ENTRY);
    }
}

/* The last frame of the greatest memory, and the one after it. */
static void greatest(void)
{
    const uint64_t hpa = UINT64_C(4096) * (SKORBILEK_MAX_FRAMES - 1);
    const uint64_t *page;
    start();
    page = skorbilek_page_read(table, GREATEST_TABLE, memory, GREATEST_MEMORY, 0, 0, hpa);
    right(page == memory + GREATEST_MEMORY - PAGE, "page_read: not the last frame", 0, 0, hpa);
    refuses_lent(GREATEST_TABLE, GREATEST_MEMORY, 0, 0, hpa + 4096, SKORBILEK_REFUSAL_OUTSIDE);
}

int main(void)
{
    accepted();
    geometry();
    argument();
    frame();
    bad_entry();
    greatest();
    printf("%d cases, %d wrong\n", cases, faults);
    return faults == 0 ? 0 : 1;
}
