/*
 * The examples of docs/CALLS.md through the library: `calls.inc` has them in order, as tests/calls_in_c.awk writes them. They are one run,
 * from an empty table of N = 8 and zeroed memory of M = 10.
 */
#include <stdio.h>
#include <string.h>

#include "skorbilek.h"

enum { TABLE_WORDS = 16, MEMORY_WORDS = 5120 };

static uint64_t t[TABLE_WORDS];
static uint64_t m[MEMORY_WORDS];
static int made;
static int wrong;

/* as many words as there is ever need of, each of them `value` */
static const uint64_t *filled(uint64_t value)
{
    static uint64_t words[2 * SKORBILEK_FRAME_WORDS];
    for (size_t i = 0; i < 2 * SKORBILEK_FRAME_WORDS; i++)
        words[i] = value;
    return words;
}

static void count(int number, int as_said)
{
    made++;
    if (number != made || !as_said) {
        wrong++;
        printf("docs/CALLS.md, call %d: not as said\n", number);
    }
}

static void answers(int number, skorbilek_answer given, skorbilek_answer said)
{
    count(number, memcmp(&given, &said, sizeof given) == 0);
}

static void maps(int number, skorbilek_mapping given, skorbilek_mapping said)
{
    count(number, memcmp(&given, &said, sizeof given) == 0);
}

static void hands(int number, const uint64_t *given, const uint64_t *said)
{
    count(number, given == said);
}

int main(void)
{
#include "calls.inc"
    printf("%d calls\n", made);
    return wrong != 0;
}
