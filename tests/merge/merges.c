/*
 * PMERGE on frames that are equal, and on frames that differ: the answers. tests/run runs it alone, and under valgrind, which counts
 * the instructions of each call (counts) and finds branches that depend on a word of the two frames (branches).
 *
 *   merges once     each case below once, a line for each: its answer and its name
 *   merges bits     every bit of every word, as the one that differs
 *
 * The exit status is 0 only if every answer is right.
 */
#include "skorbilek.h"

#include <stdio.h>
#include <string.h>
#include <valgrind/memcheck.h>

enum { N = 4, PAGE = SKORBILEK_FRAME_WORDS, FIXED = 0, OPEN = 1, LEAF = 2 };

static uint64_t table[SKORBILEK_ENTRY_WORDS * N];
static uint64_t memory[PAGE * N];

static int faults = 0;

/* Words that are as good as random, and the same in every run. */
static uint64_t random_word(void)
{
    static uint64_t state = UINT64_C(0x9e3779b97f4a7c15);
    state ^= state << 13;
    state ^= state >> 7;
    state ^= state << 17;
    return state;
}

static uint64_t address(uint64_t frame)
{
    return frame * SKORBILEK_FRAME_BYTES;
}

static void accept(skorbilek_answer a)
{
    if (a.kind == SKORBILEK_REFUSED) {
        printf("refused with %d before the merge\n", (int)a.refusal);
        faults++;
    }
}

/* A table in which guest 7's page in frame FIXED is fixed, and guest 9's page in frame OPEN is open. */
static void start(void)
{
    const size_t t = SKORBILEK_ENTRY_WORDS * N, m = PAGE * N;
    const uint64_t type = SKORBILEK_TYPE_MERGEABLE;
    memset(table, 0, sizeof table);
    memset(memory, 0, sizeof memory);
    accept(skorbilek_rmpupdate(table, t, memory, m, 0, address(FIXED), 0x50000, 7, type));
    accept(skorbilek_pvalidate(table, t, memory, m, 7, 0x50000, address(FIXED), type));
    accept(skorbilek_rmpupdate(table, t, memory, m, 0, address(OPEN), 0x60000, 9, type));
    accept(skorbilek_pvalidate(table, t, memory, m, 9, 0x60000, address(OPEN), type));
    accept(skorbilek_rmpupdate(table, t, memory, m, 0, address(LEAF), 0, 0, SKORBILEK_TYPE_LEAF));
    accept(skorbilek_pfix(table, t, memory, m, 0, address(FIXED), address(LEAF)));
}

/* PMERGE of the two frames, of whose words nobody may tell anything but whether they are all equal. */
static skorbilek_answer merge(void)
{
    VALGRIND_MAKE_MEM_UNDEFINED(&memory[PAGE * FIXED], 2 * SKORBILEK_FRAME_BYTES);
    return skorbilek_pmerge(table, SKORBILEK_ENTRY_WORDS * N, memory, PAGE * N, 0, address(FIXED), address(OPEN));
}

static void check(skorbilek_answer a, int equal, const char *what)
{
    const int right = equal ? a.kind == SKORBILEK_DONE : a.kind == SKORBILEK_REFUSED && a.refusal == SKORBILEK_REFUSAL_CONTENTS;
    if (!right) {
        printf("wrong: %s\n", what);
        faults++;
    }
}

/* The words of frame FIXED, and those of frame OPEN that differ: none, from one place up to another, or by the toss of a coin. */
struct merge_case {
    const char *name;
    enum { ZEROS, ONES, RANDOM } words;
    enum { NONE, RUN, COIN } differ;
    int first, last;
};

static const struct merge_case cases[] = {
    {"equal, all bits 0", ZEROS, NONE, 0, 0},
    {"equal, all bits 1", ONES, NONE, 0, 0},
    {"equal, random words", RANDOM, NONE, 0, 0},
    {"the first word differs", RANDOM, RUN, 0, 0},
    {"the first 16 words differ", RANDOM, RUN, 0, 15},
    {"a word in the middle differs", RANDOM, RUN, 255, 255},
    {"the last 16 words differ", RANDOM, RUN, 496, 511},
    {"the last word differs", RANDOM, RUN, 511, 511},
    {"the last word differs, all else 0", ZEROS, RUN, 511, 511},
    {"all words differ", RANDOM, RUN, 0, 511},
    {"random words differ", RANDOM, COIN, 0, 0},
};

static int differs(const struct merge_case *c, int i)
{
    return c->differ == RUN ? c->first <= i && i <= c->last : c->differ == COIN && random_word() % 2 == 1;
}

static void once(void)
{
    size_t k;
    int i;
    for (k = 0; k < sizeof cases / sizeof cases[0]; k++) {
        const struct merge_case *c = &cases[k];
        skorbilek_answer a;
        start();
        for (i = 0; i < PAGE; i++) {
            const uint64_t word = c->words == ZEROS ? 0 : c->words == ONES ? UINT64_MAX : random_word();
            memory[PAGE * FIXED + i] = word;
            memory[PAGE * OPEN + i] = differs(c, i) ? word ^ (random_word() | 1) : word;
        }
        a = merge();
        printf("%d %s\n", (int)a.refusal, c->name);
        check(a, c->differ == NONE, c->name);
    }
}

static void bits(void)
{
    int i, bit;
    for (i = 0; i < PAGE; i++)
        for (bit = 0; bit < 64; bit++) {
            start();
            memory[PAGE * OPEN + i] = UINT64_C(1) << bit;
            check(merge(), 0, "one bit differs");
        }
}

int main(int argc, char **argv)
{
    if (argc == 2 && strcmp(argv[1], "once") == 0)
        once();
    else if (argc == 2 && strcmp(argv[1], "bits") == 0)
        bits();
    else
        faults = 1;
    return faults != 0;
}
