/*
 * The worked script of the requirements through the library, call for call, with the answers that the requirements print for it. It is
 * compiled as C11 and as C++, and each of the nine calls is made. The exit status is 0 only if every answer is right.
 */
#include "skorbilek.h"

#include <stdio.h>

static uint64_t table[SKORBILEK_ENTRY_WORDS * 8];
static uint64_t memory[SKORBILEK_FRAME_WORDS * 10];

#define LENT table, sizeof table / sizeof *table, memory, sizeof memory / sizeof *memory

static int line = 0;
static int faults = 0;

/* The answer to the next line has these five numbers, and no reason: no line is refused with 5. */
static void told(skorbilek_answer a, uint64_t refusal, uint64_t kind, uint64_t asid, uint64_t gpa, uint64_t value)
{
    line++;
    if (a.refusal != refusal || a.kind != kind || a.asid != asid || a.gpa != gpa || a.value != value || a.reason != 0) {
        printf("line %d: refusal %d, kind %d, asid %d, gpa %d, value %d, reason %d\n", line, (int)a.refusal, (int)a.kind, (int)a.asid,
               (int)a.gpa, (int)a.value, (int)a.reason);
        faults++;
    }
}

static void ok(skorbilek_answer a, uint64_t kind) { told(a, 0, kind, 0, 0, 0); }
static void no(skorbilek_answer a, uint64_t refusal) { told(a, refusal, SKORBILEK_REFUSED, 0, 0, 0); }

int main(void)
{
    ok(skorbilek_rmpupdate(LENT, 0, 0x1000, 0x50000, 7, 2), SKORBILEK_NONE);
    ok(skorbilek_pvalidate(LENT, 7, 0x50000, 0x1000, 2), SKORBILEK_OPENED);
    ok(skorbilek_write(LENT, 7, 0x50000, 0x1000, 2, 2, 3, 0x2a), SKORBILEK_DONE);
    ok(skorbilek_rmpupdate(LENT, 0, 0x2000, 0x60000, 9, 2), SKORBILEK_NONE);
    ok(skorbilek_pvalidate(LENT, 9, 0x60000, 0x2000, 2), SKORBILEK_OPENED);
    ok(skorbilek_write(LENT, 9, 0x60000, 0x2000, 2, 2, 3, 0x2a), SKORBILEK_DONE);
    ok(skorbilek_rmpupdate(LENT, 0, 0x3000, 0, 0, SKORBILEK_TYPE_LEAF), SKORBILEK_NONE);
    ok(skorbilek_pfix(LENT, 0, 0x1000, 0x3000), SKORBILEK_DONE);
    ok(skorbilek_pmerge(LENT, 0, 0x1000, 0x2000), SKORBILEK_DONE);
    told(skorbilek_read(LENT, 9, 0x60000, 0x1000, 2, 2, 3), 0, SKORBILEK_WORD, 0, 0, 0x2a);
    no(skorbilek_read(LENT, 9, 0x60000, 0x2000, 2, 2, 3), SKORBILEK_REFUSAL_TYPE);
    no(skorbilek_write(LENT, 7, 0x50000, 0x1000, 2, 2, 3, 0x2b), SKORBILEK_REFUSAL_FIXED);
    no(skorbilek_punfix(LENT, 0, 0x1000), SKORBILEK_REFUSAL_STILL_SHARED);
    ok(skorbilek_punmerge(LENT, 0, 0x1000, 0x4000, 9), SKORBILEK_DONE);
    told(skorbilek_punfix(LENT, 0, 0x1000), 0, SKORBILEK_UNFIXED, 7, 0, 0);
    ok(skorbilek_write(LENT, 7, 0x50000, 0x1000, 2, 2, 3, 0x2b), SKORBILEK_DONE);
    told(skorbilek_read(LENT, 9, 0x60000, 0x4000, 2, 2, 3), 0, SKORBILEK_WORD, 0, 0, 0x2a);
    told(skorbilek_census(LENT, 9), 0, SKORBILEK_COUNT, 0, 0, 1);
    told(skorbilek_rmpupdate(LENT, 0, 0x1000, 0x50000, 7, 2), 0, SKORBILEK_CLOSED, 7, 0x50000, 0);
    no(skorbilek_read(LENT, 7, 0x50000, 0x1000, 2, 2, 3), SKORBILEK_REFUSAL_NOT_VALIDATED);
    printf("%d lines, %d wrong\n", line, faults);
    return faults == 0 && line == 20 ? 0 : 1;
}
