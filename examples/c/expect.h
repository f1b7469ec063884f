/*
 * What these examples share: an answer is printed, and compared with what the rules give.
 */
#include "skorbilek.h"

#include <inttypes.h>
#include <stdio.h>

/* How many answers were not what the rules give. */
static int faults = 0;

/* Prints what was tried and what was answered, and compares it with the refusal that the rules give (0: accepted). These examples meet no
   bad entry, so that no refusal has a reason. */
static void expect(uint64_t refusal, const char *what, skorbilek_answer answer)
{
    if (answer.kind != SKORBILEK_REFUSED)
        printf("  %-62s accepted\n", what);
    else
        printf("  %-62s refused with %" PRIu64 "\n", what, answer.refusal);
    if (answer.refusal != refusal || (answer.kind == SKORBILEK_REFUSED) != (refusal != 0) || answer.reason != 0) {
        printf("  FAULT: the rules give %" PRIu64 "\n", refusal);
        faults++;
    }
}
