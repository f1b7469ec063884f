/*
 * Calls by virtual address from C and C++: every refusal that they can meet, on the way and at the page, the order of the refusals, and
 * what is answered and changed where they are accepted. What has to be answered is worked out by hand from the papers, 01's READ, WRITE and
 * PVALIDATE and 02's Q-4. The exit status is 0 only if every answer is right.
 */
#include "skorbilek.h"

#include <stdio.h>
#include <string.h>

enum { N = 16, M = 18, FRAME = SKORBILEK_FRAME_WORDS, GUEST = 7 };
enum { SHARED = SKORBILEK_TYPE_SHARED, PRIVATE = SKORBILEK_TYPE_PRIVATE, MERGEABLE = SKORBILEK_TYPE_MERGEABLE };

/* Lengths in words: those of most calls, and the greatest that a call is lent, which are too great. */
enum {
    TABLE_WORDS = SKORBILEK_ENTRY_WORDS * N,
    MEMORY_WORDS = FRAME * M,
    GREATEST_TABLE = SKORBILEK_ENTRY_WORDS * SKORBILEK_MAX_ENTRIES,
    GREATEST_MEMORY = FRAME * SKORBILEK_MAX_FRAMES
};

/* The frames of the page tables, of the page that most cases name, and others. */
enum {
    HOST_TOP = 1, HOST_SECOND, HOST_THIRD, HOST_LAST,
    GUEST_TOP, GUEST_SECOND, GUEST_THIRD, GUEST_LAST,
    PAGE, CLOSED_PAGE, FIXED_PAGE, LEAF_PAGE, SHARED_PAGE, BAD_PAGE, OTHERS_PAGE,
    BARE_PAGE /* it has no entry, nor has the one after it */
};

/* The entries that every case starts with, but for what it changes. Frames 16 and 17 have none. */
static const uint64_t entries[TABLE_WORDS] = {
    0,        0,             /* frame 0: SHARED */
    0,        0,             /* frames 1 to 4: SHARED, the host's page tables */
    0,        0,
    0,        0,
    0,        0,
    0x50007,  0x30241800000, /* frame 5: guest 7's, PRIVATE and open, the top of its page tables */
    0x60007,  0x30241801000, /* frame 6: guest 7's, MERGEABLE and open, the second */
    0,        0,             /* frame 7: SHARED, the third */
    0x50007,  0x30241803000, /* frame 8: guest 7's, PRIVATE and open, the last */
    0x50007,  0x30241804000, /* frame 9: guest 7's, PRIVATE and open */
    0x20007,  0x30241805000, /* frame 10: guest 7's, MERGEABLE, not open */
    0xe0007,  0xc000,        /* frame 11: guest 7's, fixed, with its leaf in frame 12 */
    0x30000,  0,             /* frame 12: a LEAF */
    0,        0,             /* frame 13: SHARED */
    0x100000, 0,             /* frame 14: not well formed, spare bits */
    0x50009,  0x3024180d000, /* frame 15: guest 9's, PRIVATE and open */
};

/* The words of the page tables that are not 0, and guest 7's in the leaf: frame, index, word. The guest's pages are at 0x30241800000 and
   above, which has the indices 6, 9 and 12; their virtual addresses are 0xffff8080c0a14000 and above, with the indices 257, 3 and 5. */
static const uint64_t words[][3] = {
    {HOST_TOP, 6, 0x0000000000002001},
    {HOST_SECOND, 9, 0x0000000000003001},
    {HOST_THIRD, 12, 0x0000000000004001},
    {HOST_LAST, 0, 0x0010000000005001},
    {HOST_LAST, 1, 0x0020000000006001},
    {HOST_LAST, 2, 0x0000000000007001},
    {HOST_LAST, 3, 0x0010000000008001},
    {HOST_LAST, 4, 0x0010000000009001},
    {HOST_LAST, 5, 0x002000000000a001},
    {HOST_LAST, 6, 0x002000000000b001},
    {HOST_LAST, 7, 0x000000000000d001},
    {HOST_LAST, 8, 0x0000000000010001},  /* frame 16 as SHARED, and in the next as PRIVATE */
    {HOST_LAST, 9, 0x0010000000010001},
    {HOST_LAST, 10, 0x0010000000012001}, /* frame 18, which memory lacks */
    {HOST_LAST, 11, 0x0010000000009001}, /* frame 9, which is at 0x30241804000 */
    {HOST_LAST, 12, 0x001000000000e001},
    {HOST_LAST, 13, 0x001000000000f001},
    {HOST_LAST, 14, 0x001000000000d001}, /* frame 13, which is SHARED, as PRIVATE */
    {GUEST_TOP, 2, 0x0020030241801001},  /* an address of the lower half, and then the first and the last index of each half */
    {GUEST_TOP, 0, 0x0020030241801001},
    {GUEST_TOP, 255, 0x0020030241801001},
    {GUEST_TOP, 256, 0x0020030241801001},
    {GUEST_TOP, 511, 0x0020030241801001},
    {GUEST_TOP, 257, 0x0020030241801001},
    {GUEST_SECOND, 3, 0x0000030241802001},
    {GUEST_THIRD, 5, 0x0010030241803001},
    {GUEST_LAST, 0x14, 0x0010030241804001},
    {GUEST_LAST, 0x15, 0x0020030241805001},
    {GUEST_LAST, 0x16, 0x0020030241806001},
    {GUEST_LAST, 0x17, 0x0000030241807001},
    {GUEST_LAST, 0x18, 0x0000030241808001},
    {GUEST_LAST, 0x19, 0x0010030241809001},
    {GUEST_LAST, 0x1a, 0x001003024180a001},
    {GUEST_LAST, 0x1b, 0x001003024180b001},
    {GUEST_LAST, 0x1c, 0x001003024180c001},
    {GUEST_LAST, 0x1d, 0x001003024180d001},
    {GUEST_LAST, 0x1e, 0x0000030241805001}, /* as SHARED, where the host's type is MERGEABLE */
    {GUEST_LAST, 0x1f, 0x000003024180e001}, /* as SHARED, where the host's type is PRIVATE */
    {LEAF_PAGE, GUEST, 0x30241806001},
};

static uint64_t table[GREATEST_TABLE + SKORBILEK_ENTRY_WORDS];
static uint64_t memory[GREATEST_MEMORY + FRAME];
static size_t table_words = TABLE_WORDS;
static size_t memory_words = MEMORY_WORDS;
static uint64_t table_before[TABLE_WORDS];
static uint64_t memory_before[MEMORY_WORDS];

static int cases = 0;
static int faults = 0;

/* How a guest names a virtual address. */
typedef struct named {
    uint64_t caller, root, root_type, host_root, va;
} named;

/* Guest 7 names the page in frame 9. */
static const named OPEN_PAGE = {GUEST, 0x30241800000, PRIVATE, 0x1000, 0xffff8080c0a14000};
static const skorbilek_mapping OPEN_MAPPING = {0, 0, 0x30241804000, 0x9000, PRIVATE, PRIVATE};

#define LENT table, table_words, memory, memory_words
#define NAMED(a) (a).caller, (a).root, (a).root_type, (a).host_root, (a).va

/* A word of the table or of memory that a case changes, and what is then refused. 0: nothing is. */
typedef struct change {
    uint64_t *word;
    uint64_t value;
    uint64_t refusal, reason;
} change;

#define ENTRY(frame) (table + SKORBILEK_ENTRY_WORDS * (frame))
#define ADDRESS(frame) (table + SKORBILEK_ENTRY_WORDS * (frame) + 1)
#define WORD(frame, index) (memory + FRAME * (frame) + (index))

/* The table and memory that every case starts with. From frame 9 on no two words of memory are the same. */
static void start(void)
{
    uint64_t i;
    memcpy(table, entries, sizeof entries);
    for (i = 0; i < MEMORY_WORDS; i++)
        memory[i] = i < FRAME * PAGE ? 0 : i + 1;
    for (i = 0; i < sizeof words / sizeof *words; i++)
        memory[FRAME * words[i][0] + words[i][1]] = words[i][2];
    cases++;
}

/* Table and memory are now what a refused call has to leave them as. */
static void keep(void)
{
    memcpy(table_before, table, sizeof table_before);
    memcpy(memory_before, memory, sizeof memory_before);
}

/* No word of the N entries, nor of the M frames, is other than kept. */
static int is_as_kept(void)
{
    return memcmp(table, table_before, sizeof table_before) == 0 && memcmp(memory, memory_before, sizeof memory_before) == 0;
}

/* These changes are made to what every case starts with. Where two are of the same word, the first counts. */
static void start_with(const change *made, size_t count)
{
    start();
    while (count-- > 0)
        *made[count].word = made[count].value;
    keep();
}

static void right(int is_right, const char *what, named a)
{
    if (!is_right) {
        printf("case %d, %s: caller %#llx, root %#llx, root_type %#llx, host_root %#llx, va %#llx\n", cases, what,
               (unsigned long long)a.caller, (unsigned long long)a.root, (unsigned long long)a.root_type, (unsigned long long)a.host_root,
               (unsigned long long)a.va);
        faults++;
    }
}

static int is_answer(skorbilek_answer given, skorbilek_answer said) { return memcmp(&given, &said, sizeof given) == 0; }
static int is_mapping(skorbilek_mapping given, skorbilek_mapping said) { return memcmp(&given, &said, sizeof given) == 0; }

static skorbilek_answer no(uint64_t refusal, uint64_t reason)
{
    const skorbilek_answer answer = {refusal, SKORBILEK_REFUSED, 0, 0, 0, reason};
    return answer;
}

static skorbilek_answer yes(uint64_t kind, uint64_t gpa, uint64_t value)
{
    const skorbilek_answer answer = {0, kind, 0, gpa, value, 0};
    return answer;
}

/* All four calls are refused with this number and reason and nothing else, and no word changes. */
static void refuses(named a, uint64_t refusal, uint64_t reason)
{
    const skorbilek_mapping nowhere = {refusal, reason, 0, 0, 0, 0};
    const skorbilek_answer refused = no(refusal, reason);
    right(is_mapping(skorbilek_walk(LENT, NAMED(a)), nowhere), "walk: not this refusal", a);
    right(is_answer(skorbilek_pvalidate_va(LENT, NAMED(a), PRIVATE), refused), "pvalidate_va: not this refusal", a);
    right(is_answer(skorbilek_read_va(LENT, NAMED(a), 0), refused), "read_va: not this refusal", a);
    right(is_answer(skorbilek_write_va(LENT, NAMED(a), 511, 1), refused), "write_va: not this refusal", a);
    right(is_as_kept(), "refused, and changes a word", a);
}

/* Arguments alone are other than those of the open page. */
static void refuses_named(named a, uint64_t refusal)
{
    start_with(NULL, 0);
    refuses(a, refusal, 0);
}

/* All four calls reach the open page: every field of the answers, and the one word that changes. */
static void reaches_page(named a)
{
    const uint64_t gpa = OPEN_MAPPING.gpa;
    right(is_mapping(skorbilek_walk(LENT, NAMED(a)), OPEN_MAPPING), "walk: another mapping", a);
    right(is_answer(skorbilek_pvalidate_va(LENT, NAMED(a), PRIVATE), yes(SKORBILEK_ALREADY, gpa, 0)), "pvalidate_va: another answer", a);
    right(is_answer(skorbilek_read_va(LENT, NAMED(a), 511), yes(SKORBILEK_WORD, gpa, FRAME * PAGE + 512)), "read_va: another answer", a);
    right(is_as_kept(), "walked and read, and changes a word", a);
    right(is_answer(skorbilek_write_va(LENT, NAMED(a), 511, UINT64_MAX), yes(SKORBILEK_DONE, gpa, 0)), "write_va: another answer", a);
    memory_before[FRAME * PAGE + 511] = UINT64_MAX;
    right(is_as_kept(), "write_va: other words change", a);
}

static void reaches_page_with(const change *made, size_t count, named a)
{
    start_with(made, count);
    reaches_page(a);
}

/* 1: sizes that no table and memory may have; and 1 comes before 2. */
static void geometry(void)
{
    static const size_t sizes[][2] = {
        {0, MEMORY_WORDS},
        {TABLE_WORDS - 1, MEMORY_WORDS},
        {TABLE_WORDS + 1, MEMORY_WORDS},
        {2 * (M + 1), MEMORY_WORDS},
        {GREATEST_TABLE + 2, GREATEST_MEMORY},
        {TABLE_WORDS, 0},
        {TABLE_WORDS, FRAME * (N - 1)},
        {TABLE_WORDS, MEMORY_WORDS - 1},
        {TABLE_WORDS, MEMORY_WORDS + 1},
        {TABLE_WORDS, GREATEST_MEMORY + FRAME},
    };
    const named wrong = {512, 1, 3, 1, 1};
    size_t i;
    for (i = 0; i < sizeof sizes / sizeof *sizes; i++) {
        table_words = sizes[i][0];
        memory_words = sizes[i][1];
        refuses_named(OPEN_PAGE, SKORBILEK_REFUSAL_GEOMETRY);
        refuses_named(wrong, SKORBILEK_REFUSAL_GEOMETRY);
        right(is_answer(skorbilek_pvalidate_va(LENT, NAMED(OPEN_PAGE), 0), no(1, 0)), "pvalidate_va: 1 before the type's 2", OPEN_PAGE);
        right(is_answer(skorbilek_read_va(LENT, NAMED(OPEN_PAGE), 512), no(1, 0)), "read_va: 1 before the index's 2", OPEN_PAGE);
        right(is_answer(skorbilek_write_va(LENT, NAMED(OPEN_PAGE), 512, 0), no(1, 0)), "write_va: 1 before the index's 2", OPEN_PAGE);
    }
    table_words = TABLE_WORDS;
    memory_words = MEMORY_WORDS;
}

/* 2: each argument of all four, with a caller that reaches the page, and with the host: 2 comes before 3. */
static void argument(void)
{
    static const uint64_t no_address[] = {1, 8, 0x30241800800, UINT64_C(1) << 52, (UINT64_C(1) << 52) + 0x1000, UINT64_MAX};
    static const uint64_t no_va[] = {
        1,                  0xffff8080c0a14008, 0xffff8080c0a14800, UINT64_MAX,         /* no multiples of 4,096 */
        0x00008080c0a14000, 0x7fff8080c0a14000, 0xfffe8080c0a14000, 0x0000800000000000, /* bit 47 set, and one of 63:48 clear */
        0xffff0100c0a14000, 0x00010100c0a14000, 0x80000100c0a14000, 0xffff7ffffffff000, /* bit 47 clear, and one of 63:48 set */
    };
    size_t i, host;
    for (host = 0; host < 2; host++) {
        named a = OPEN_PAGE;
        if (host == 1)
            a.caller = 0;
        for (i = 0; i < sizeof no_address / sizeof *no_address; i++) {
            const named root = {a.caller, no_address[i], a.root_type, a.host_root, a.va};
            const named host_root = {a.caller, a.root, a.root_type, no_address[i], a.va};
            refuses_named(root, SKORBILEK_REFUSAL_ARGUMENT);
            refuses_named(host_root, SKORBILEK_REFUSAL_ARGUMENT);
        }
        for (i = 0; i < sizeof no_va / sizeof *no_va; i++) {
            const named va = {a.caller, a.root, a.root_type, a.host_root, no_va[i]};
            refuses_named(va, SKORBILEK_REFUSAL_ARGUMENT);
        }
        a.root_type = SKORBILEK_TYPE_LEAF;
        refuses_named(a, SKORBILEK_REFUSAL_ARGUMENT);
        a.root_type = UINT64_MAX;
        refuses_named(a, SKORBILEK_REFUSAL_ARGUMENT);
    }
}

/* 2 again: the caller; and the type and the index, which come before 3 and before what is met on the way. */
static void more_arguments(void)
{
    static const uint64_t bad_types[] = {SHARED, SKORBILEK_TYPE_LEAF, 4, UINT64_MAX};
    static const uint64_t bad_indices[] = {512, 4096, UINT64_MAX};
    static const uint64_t callers[] = {GUEST, 0, 9}; /* else accepted, 3 and 7 */
    named a = OPEN_PAGE;
    size_t i, j;
    a.caller = 512;
    refuses_named(a, SKORBILEK_REFUSAL_ARGUMENT);
    a.caller = UINT64_MAX;
    refuses_named(a, SKORBILEK_REFUSAL_ARGUMENT);
    for (i = 0; i < sizeof callers / sizeof *callers; i++) {
        a.caller = callers[i];
        start_with(NULL, 0);
        for (j = 0; j < sizeof bad_types / sizeof *bad_types; j++)
            right(is_answer(skorbilek_pvalidate_va(LENT, NAMED(a), bad_types[j]), no(2, 0)), "pvalidate_va: not 2 for the type", a);
        for (j = 0; j < sizeof bad_indices / sizeof *bad_indices; j++) {
            right(is_answer(skorbilek_read_va(LENT, NAMED(a), bad_indices[j]), no(2, 0)), "read_va: not 2 for the index", a);
            right(is_answer(skorbilek_write_va(LENT, NAMED(a), bad_indices[j], 1), no(2, 0)), "write_va: not 2 for the index", a);
        }
        right(is_as_kept(), "2, and changes a word", a);
    }
}

/* 3, and what arguments alone lead to on the way: another caller, root, type of the root, or host's root. */
static void caller_and_roots(void)
{
    static const uint64_t named_so[][5] = {
        /* caller, root, root_type, host_root, and the refusal */
        {0, 0x30241800000, PRIVATE, 0x1000, 3},
        {0, 0x30241800000, SHARED, 0x1000, 3},
        {0, 0x1000000000000, PRIVATE, 0x12000, 3},     /* the host: before 2 of the root, and 4 */
        {GUEST, 0x1000000000000, PRIVATE, 0x12000, 2}, /* a root of 2^48: before 4 */
        {GUEST, 0xffffffffff000, PRIVATE, 0x1000, 2},
        {GUEST, 0xfffffffff000, PRIVATE, 0x1000, 18},  /* below 2^48: an absent entry of the host's top table */
        {GUEST, 0x30241800000, PRIVATE, 0x12000, 4},   /* frame 18 */
        {GUEST, 0x30241800000, PRIVATE, 0xffffffffff000, 4},
        {GUEST, 0x30241800000, PRIVATE, 0x5000, 6},    /* the host's root in a guest's page, and in a LEAF */
        {GUEST, 0x30241800000, PRIVATE, 0xc000, 6},
        {GUEST, 0x30241800000, PRIVATE, 0, 18},        /* in a frame of zeros */
        {GUEST, 0x30241800000, SHARED, 0x1000, 6},     /* the root's type is not the host's */
        {GUEST, 0x30241800000, MERGEABLE, 0x1000, 6},
        {GUEST, 0x30241808000, SHARED, 0x1000, 18},    /* a root in a SHARED frame without an entry: word 257 is absent there */
        {GUEST, 0x30241809000, PRIVATE, 0x1000, 6},    /* and as PRIVATE */
        {GUEST, 0x3024180a000, PRIVATE, 0x1000, 4},
        {GUEST, 0x3024180b000, PRIVATE, 0x1000, 8},
        {GUEST, 0x3024180d000, PRIVATE, 0x1000, 7},
        {GUEST, 0x30241805000, MERGEABLE, 0x1000, 9},
        {9, 0x30241800000, PRIVATE, 0x1000, 7},
        {511, 0x30241800000, PRIVATE, 0x1000, 7},
    };
    size_t i;
    for (i = 0; i < sizeof named_so / sizeof *named_so; i++) {
        const named a = {named_so[i][0], named_so[i][1], named_so[i][2], named_so[i][3], OPEN_PAGE.va};
        refuses_named(a, named_so[i][4]);
    }
}

/* What is wrong on the way to the open page, in the order in which the walk meets it. No two are of the same word. */
static const change ON_THE_WAY[] = {
    /* the host's four tables, for the guest's top table */
    {ENTRY(HOST_TOP), 0x100000, 5, SKORBILEK_REASON_SPARE_BITS},
    {WORD(HOST_TOP, 6), 0xfffffffffffffffe, 18, 0},
    {ENTRY(HOST_SECOND), 0x10007, 6, 0},
    {WORD(HOST_SECOND, 9), 0x0000000000003081, 19, 0},
    {ENTRY(HOST_THIRD), 0x10000, 5, SKORBILEK_REASON_ASID},
    {WORD(HOST_THIRD, 12), 0x0000000000012001, 4, 0},
    {WORD(HOST_LAST, 0), 0x0030000000005001, 6, 0},
    {ENTRY(GUEST_TOP), 0x50009, 7, 0},
    {WORD(GUEST_TOP, 257), 0x0020030241801000, 18, 0},
    /* the guest's second table, its third and its last */
    {WORD(HOST_LAST, 1), 0x0010000000006001, 6, 0},
    {ENTRY(GUEST_SECOND), 0x20007, 9, 0},
    {WORD(GUEST_SECOND, 3), 0x0000030241802081, 19, 0},
    {WORD(HOST_LAST, 2), 0x0000000000012001, 4, 0},
    {ENTRY(GUEST_THIRD), 0x40000, 5, SKORBILEK_REASON_FLAGS},
    {WORD(GUEST_THIRD, 5), 0x0030030241803001, 6, 0},
    {WORD(HOST_LAST, 3), 0, 18, 0},
    {ADDRESS(GUEST_LAST), 0x30241804000, 8, 0},
    {WORD(GUEST_LAST, 0x14), 0x0011000000000001, 2, 0},
    /* and the page's frame */
    {WORD(HOST_LAST, 4), 0x0030000000009001, 6, 0},
};

/* Each by itself, and each with all that follow: the one that is met first decides. The page itself is bad, too, which the calls would
   meet last. With all of it, 2 of the root comes first, and 3 before that. */
static void order(void)
{
    const size_t count = sizeof ON_THE_WAY / sizeof *ON_THE_WAY;
    named a = OPEN_PAGE;
    size_t i;
    for (i = 0; i < count; i++) {
        start_with(ON_THE_WAY + i, 1);
        refuses(OPEN_PAGE, ON_THE_WAY[i].refusal, ON_THE_WAY[i].reason);
        start_with(ON_THE_WAY + i, count - i);
        *ENTRY(PAGE) = 0x100000;
        keep();
        refuses(OPEN_PAGE, ON_THE_WAY[i].refusal, ON_THE_WAY[i].reason);
    }
    start_with(ON_THE_WAY, count);
    a.root = UINT64_C(1) << 48;
    refuses(a, SKORBILEK_REFUSAL_ARGUMENT, 0);
    a.caller = 0;
    refuses(a, SKORBILEK_REFUSAL_CALLER, 0);
    a.va = UINT64_C(1) << 47;
    refuses(a, SKORBILEK_REFUSAL_ARGUMENT, 0);
}

/* An entry of each table. With a refusal of 0 the open page is reached all the same. */
static const change ENTRIES[] = {
    /* the guest's: absent, whatever the other bits; bit 7, but at the last level; LEAF; 2^48; and 18, 19, 6, 2 in this order */
    {WORD(GUEST_TOP, 257), 0xfffffffffffffffe, 18, 0},
    {WORD(GUEST_TOP, 257), 0x0020030241801081, 19, 0},
    {WORD(GUEST_TOP, 257), 0x0031000000001081, 19, 0},
    {WORD(GUEST_TOP, 257), 0x0030030241801001, 6, 0},
    {WORD(GUEST_TOP, 257), 0x0031000000001001, 6, 0},
    {WORD(GUEST_TOP, 257), 0x002fffffffffff7f, 2, 0},
    {WORD(GUEST_TOP, 257), 0x0020ffffffffff7f, 18, 0}, /* just below 2^48, which the host's top table lacks */
    {WORD(GUEST_SECOND, 3), 0xfffffffffffffffe, 18, 0},
    {WORD(GUEST_SECOND, 3), 0x0031000000002081, 19, 0},
    {WORD(GUEST_SECOND, 3), 0x0030030241802001, 6, 0},
    {WORD(GUEST_SECOND, 3), 0x0031000000002001, 6, 0},
    {WORD(GUEST_SECOND, 3), 0x0001000000002001, 2, 0},
    {WORD(GUEST_THIRD, 5), 0xfffffffffffffffe, 18, 0},
    {WORD(GUEST_THIRD, 5), 0x0010030241803081, 19, 0},
    {WORD(GUEST_THIRD, 5), 0x0031000000003081, 19, 0},
    {WORD(GUEST_THIRD, 5), 0x0031000000003001, 6, 0},
    {WORD(GUEST_THIRD, 5), 0x0011000000003001, 2, 0},
    {WORD(GUEST_LAST, 0x14), 0xfffffffffffffffe, 18, 0},
    {WORD(GUEST_LAST, 0x14), 0x0030030241804001, 6, 0},
    {WORD(GUEST_LAST, 0x14), 0x0031000000004081, 6, 0},
    {WORD(GUEST_LAST, 0x14), 0x0010030241804081, 0, 0},
    /* the type from the entry above is not the host's */
    {WORD(GUEST_TOP, 257), 0x0010030241801001, 6, 0},
    {WORD(GUEST_SECOND, 3), 0x0020030241802001, 6, 0},
    {WORD(GUEST_THIRD, 5), 0x0000030241803001, 6, 0},
    /* the host's: absent; bit 7, but at the last level; LEAF at the last level only; and 18, 19, 6 in this order */
    {WORD(HOST_TOP, 6), 0x0000000000002081, 19, 0},
    {WORD(HOST_TOP, 6), 0x0030000000002081, 19, 0},
    {WORD(HOST_TOP, 6), 0x0030000000002001, 0, 0},
    {WORD(HOST_SECOND, 9), 0xfffffffffffffffe, 18, 0},
    {WORD(HOST_SECOND, 9), 0x0030000000003001, 0, 0},
    {WORD(HOST_THIRD, 12), 0xfffffffffffffffe, 18, 0},
    {WORD(HOST_THIRD, 12), 0x0000000000004081, 19, 0},
    {WORD(HOST_THIRD, 12), 0x0030000000004001, 0, 0},
    {WORD(HOST_LAST, 4), 0xfffffffffffffffe, 18, 0},
    {WORD(HOST_LAST, 4), 0x0030000000009081, 6, 0},
    {WORD(HOST_LAST, 4), 0x0010000000009081, 0, 0},
    {WORD(HOST_LAST, 0), 0x0010000000005081, 0, 0},
    {WORD(HOST_LAST, 2), 0x0030000000007001, 6, 0},
    /* the host's tables where the host can't read them as SHARED: outside, a bad entry, a guest's page, a LEAF */
    {WORD(HOST_TOP, 6), 0x0000000000012001, 4, 0},
    {WORD(HOST_TOP, 6), 0x000ffffffffff001, 4, 0},
    {WORD(HOST_SECOND, 9), 0x000000000000e001, 5, SKORBILEK_REASON_SPARE_BITS},
    {WORD(HOST_THIRD, 12), 0x0000000000009001, 6, 0},
    {WORD(HOST_THIRD, 12), 0x000000000000c001, 6, 0},
    /* the guest's tables where the guest can't read them: outside, a bad entry, no entry, SHARED, another guest's, another address */
    {WORD(HOST_LAST, 0), 0x0010000000012001, 4, 0},
    {WORD(HOST_LAST, 3), 0x001000000000e001, 5, SKORBILEK_REASON_SPARE_BITS},
    {WORD(HOST_LAST, 3), 0x0010000000010001, 6, 0},
    {WORD(HOST_LAST, 3), 0x001000000000d001, 6, 0},
    {WORD(HOST_LAST, 3), 0x001000000000f001, 7, 0},
    {WORD(HOST_LAST, 3), 0x0010000000009001, 8, 0},
    /* "All other bits are ignored" */
    {WORD(GUEST_TOP, 257), 0xffe0030241801f7f, 0, 0},
    {WORD(GUEST_SECOND, 3), 0xffc0030241802f7f, 0, 0},
    {WORD(GUEST_THIRD, 5), 0xffd0030241803f7f, 0, 0},
    {WORD(GUEST_LAST, 0x14), 0xffd0030241804fff, 0, 0},
    {WORD(HOST_TOP, 6), 0xfff0000000002f7f, 0, 0},
    {WORD(HOST_SECOND, 9), 0xffd0000000003f7f, 0, 0},
    {WORD(HOST_THIRD, 12), 0xffe0000000004f7f, 0, 0},
    {WORD(HOST_LAST, 4), 0xffd0000000009fff, 0, 0},
};

static void table_entries(void)
{
    size_t i;
    for (i = 0; i < sizeof ENTRIES / sizeof *ENTRIES; i++) {
        start_with(ENTRIES + i, 1);
        if (ENTRIES[i].refusal == 0)
            reaches_page(OPEN_PAGE);
        else
            refuses(OPEN_PAGE, ENTRIES[i].refusal, ENTRIES[i].reason);
    }
}

/* A read of a guest's table that the table's own entry refuses; 5 with each reason, for the guest's and for the host's. */
static const change READS[] = {
    {ENTRY(GUEST_TOP), 0x150007, 5, SKORBILEK_REASON_SPARE_BITS},
    {ENTRY(GUEST_TOP), 0x50207, 5, SKORBILEK_REASON_ASID},
    {ENTRY(GUEST_TOP), 0xd0007, 5, SKORBILEK_REASON_FLAGS},
    {ADDRESS(GUEST_TOP), 0x30241800800, 5, SKORBILEK_REASON_ADDRESS},
    {ENTRY(GUEST_TOP), 0x60007, 6, 0},
    {ENTRY(GUEST_TOP), 0x50009, 7, 0},
    {ADDRESS(GUEST_TOP), 0x30241801000, 8, 0},
    {ENTRY(GUEST_TOP), 0x10007, 9, 0},
    {ENTRY(GUEST_SECOND), 0x50007, 6, 0},
    {ENTRY(GUEST_SECOND), 0x60009, 7, 0},
    {ADDRESS(GUEST_SECOND), 0, 8, 0},
    {ENTRY(GUEST_THIRD), 0x50007, 6, 0},
    {ENTRY(GUEST_THIRD), 0x30000, 6, 0},
    {ENTRY(GUEST_LAST), 0x10007, 9, 0},
    {ENTRY(HOST_LAST), 0x8000000000000000, 5, SKORBILEK_REASON_SPARE_BITS},
    {ENTRY(HOST_LAST), 7, 5, SKORBILEK_REASON_ASID},
    {ENTRY(HOST_LAST), 0x80000, 5, SKORBILEK_REASON_FLAGS},
    {ADDRESS(HOST_LAST), 0x4000, 5, SKORBILEK_REASON_ADDRESS},
    {ENTRY(HOST_LAST), 0x30000, 6, 0},
    {ENTRY(HOST_LAST), 0x50007, 6, 0},
};

static void table_reads(void)
{
    size_t i;
    for (i = 0; i < sizeof READS / sizeof *READS; i++) {
        start_with(READS + i, 1);
        refuses(OPEN_PAGE, READS[i].refusal, READS[i].reason);
    }
}

/* The guest's second table in a fixed page, whose leaf is frame 12: 12, 13 and 8, by the guest's own word there; and it is read. */
static void merged_table(void)
{
    static const change leaf_words[] = {
        {WORD(LEAF_PAGE, GUEST), 0x30241801003, 12, 0},
        {WORD(LEAF_PAGE, GUEST), 0x0010030241801001, 12, 0},
        {WORD(LEAF_PAGE, GUEST), 0x30241801000, 13, 0},
        {WORD(LEAF_PAGE, GUEST), 0x30241802001, 8, 0},
        {ENTRY(LEAF_PAGE), 0, 12, 0},
        {ENTRY(LEAF_PAGE), 0x30007, 12, 0},
    };
    change made[] = {
        {WORD(LEAF_PAGE, GUEST), 0x30241801001, 0, 0},
        {ENTRY(GUEST_SECOND), 0xe0007, 0, 0},
        {ADDRESS(GUEST_SECOND), 0xc000, 0, 0},
    };
    size_t i;
    reaches_page_with(made, 3, OPEN_PAGE);
    made[1].value = 0xe0009; /* guest 9 owns the page, and guest 7 has a place in it */
    reaches_page_with(made, 3, OPEN_PAGE);
    for (i = 0; i < sizeof leaf_words / sizeof *leaf_words; i++) {
        made[0] = leaf_words[i];
        start_with(made, 3);
        refuses(OPEN_PAGE, leaf_words[i].refusal, 0);
    }
}

/* Other ways to the open page: other indices of its virtual address, and other roots. */
static void other_ways(void)
{
    static const uint64_t vas[] = {
        0x00000100c0a14000, 0x00000000c0a14000, 0x00007f80c0a14000, 0xffff8000c0a14000, 0xffffff80c0a14000,
    };
    const change lower_root[] = {{WORD(GUEST_THIRD, 257), 0x0020030241801001, 0, 0}};
    const change bare_root[] = {{WORD(BARE_PAGE + 1, 6), 0x0000000000002001, 0, 0}};
    const change bare_table[] = {{WORD(HOST_TOP, 6), 0x0000000000010001, 0, 0}, {WORD(BARE_PAGE, 9), 0x0000000000003001, 0, 0}};
    named a = OPEN_PAGE;
    size_t i;
    for (i = 0; i < sizeof vas / sizeof *vas; i++) {
        a.va = vas[i];
        reaches_page_with(NULL, 0, a);
    }
    reaches_page_with(NULL, 0, OPEN_PAGE);
    reaches_page_with(bare_table, 2, OPEN_PAGE);
    a = OPEN_PAGE;
    a.root = 0x30241802000;
    a.root_type = SHARED;
    reaches_page_with(lower_root, 1, a);
    a = OPEN_PAGE;
    a.host_root = 0x11000;
    reaches_page_with(bare_root, 1, a);
}

/* What the guest's pages come to: the virtual address and its mapping; the type, kind and refusal of pvalidate_va; the refusals of read_va
   and write_va. */
typedef struct page {
    uint64_t va, gpa, hpa, gtype, ntype;
    uint64_t type, kind, pvalidate, read, write;
} page;

static const page PAGES[] = {
    {0xffff8080c0a14000, 0x30241804000, 0x9000, 1, 1, 1, SKORBILEK_ALREADY, 0, 0, 0},
    {0xffff8080c0a14000, 0x30241804000, 0x9000, 1, 1, 2, 0, 6, 0, 0},
    {0xffff8080c0a15000, 0x30241805000, 0xa000, 2, 2, 2, SKORBILEK_OPENED, 0, 9, 9},
    {0xffff8080c0a15000, 0x30241805000, 0xa000, 2, 2, 1, 0, 6, 9, 9},
    {0xffff8080c0a16000, 0x30241806000, 0xb000, 2, 2, 2, 0, 10, 0, 10},
    {0xffff8080c0a17000, 0x30241807000, 0xd000, 0, 0, 1, 0, 6, 0, 0},
    {0xffff8080c0a18000, 0x30241808000, 0x10000, 0, 0, 1, 0, 4, 0, 0},
    {0xffff8080c0a19000, 0x30241809000, 0x10000, 1, 1, 1, 0, 4, 6, 6},
    {0xffff8080c0a1a000, 0x3024180a000, 0x12000, 1, 1, 1, 0, 4, 4, 4},
    {0xffff8080c0a1b000, 0x3024180b000, 0x9000, 1, 1, 1, 0, 8, 8, 8},
    {0xffff8080c0a1c000, 0x3024180c000, 0xe000, 1, 1, 1, 0, 5, 5, 5},
    {0xffff8080c0a1d000, 0x3024180d000, 0xf000, 1, 1, 1, 0, 7, 7, 7},
    {0xffff8080c0a1e000, 0x30241805000, 0xa000, 0, 2, 2, SKORBILEK_OPENED, 0, 6, 6}, /* the types differ, which pvalidate_va lets pass */
    {0xffff8080c0a1f000, 0x3024180e000, 0xd000, 0, 1, 1, 0, 6, 6, 6}, /* they differ, and the guest's is the entry's */
};

/* Frame 14 alone is bad. */
static skorbilek_answer refused_at_page(uint64_t refusal)
{
    return no(refusal, refusal == SKORBILEK_REFUSAL_BAD_ENTRY ? SKORBILEK_REASON_SPARE_BITS : 0);
}

/* The page as its row says, word 3 of it read and written. */
static void comes_to(const page *p, named a)
{
    const skorbilek_mapping there = {0, 0, p->gpa, p->hpa, p->gtype, p->ntype};
    const uint64_t word = p->hpa / sizeof(uint64_t) + 3; /* in memory, which holds its number plus 1 there */
    skorbilek_answer said;
    start_with(NULL, 0);
    right(is_mapping(skorbilek_walk(LENT, NAMED(a)), there), "walk: another mapping", a);
    said = p->read == 0 ? yes(SKORBILEK_WORD, p->gpa, word + 1) : refused_at_page(p->read);
    right(is_answer(skorbilek_read_va(LENT, NAMED(a), 3), said), "read_va: another answer", a);
    right(is_as_kept(), "walked and read, and changes a word", a);
    said = p->write == 0 ? yes(SKORBILEK_DONE, p->gpa, 0) : refused_at_page(p->write);
    right(is_answer(skorbilek_write_va(LENT, NAMED(a), 3, 0x2a), said), "write_va: another answer", a);
    if (p->write == 0)
        memory_before[word] = 0x2a;
    right(is_as_kept(), "write_va: other words change", a);
    said = p->pvalidate == 0 ? yes(p->kind, p->gpa, 0) : refused_at_page(p->pvalidate);
    right(is_answer(skorbilek_pvalidate_va(LENT, NAMED(a), p->type), said), "pvalidate_va: another answer", a);
    if (p->kind == SKORBILEK_OPENED)
        table_before[SKORBILEK_ENTRY_WORDS * CLOSED_PAGE] = 0x60007;
    right(is_as_kept(), "pvalidate_va: other words change", a);
}

/* The answer of 01's call, and the guest address with it where it was accepted, is that of the call by virtual address. Table and memory
   are as that one left them. */
static void is_same(skorbilek_answer by_va, skorbilek_answer plain, uint64_t gpa, const char *what, named a)
{
    if (plain.kind != SKORBILEK_REFUSED)
        plain.gpa = gpa;
    right(is_answer(by_va, plain), what, a);
    right(is_as_kept(), what, a);
}

/* A call by virtual address is 01's call with what the walk yields. Each of the two gets what every case starts with. */
static void is_plain_call(named a, uint64_t type, uint64_t index)
{
    skorbilek_mapping at;
    skorbilek_answer by_va;
    start();
    at = skorbilek_walk(LENT, NAMED(a));
    right(at.refusal == 0, "walk: refused", a);
    by_va = skorbilek_pvalidate_va(LENT, NAMED(a), type);
    keep();
    start();
    is_same(by_va, skorbilek_pvalidate(LENT, a.caller, at.gpa, at.hpa, type), at.gpa, "pvalidate_va: not as pvalidate", a);
    start();
    by_va = skorbilek_read_va(LENT, NAMED(a), index);
    keep();
    start();
    is_same(by_va, skorbilek_read(LENT, a.caller, at.gpa, at.hpa, at.gtype, at.ntype, index), at.gpa, "read_va: not as read", a);
    start();
    by_va = skorbilek_write_va(LENT, NAMED(a), index, ~index);
    keep();
    start();
    is_same(by_va, skorbilek_write(LENT, a.caller, at.gpa, at.hpa, at.gtype, at.ntype, index, ~index), at.gpa, "write_va: not as write", a);
}

static void at_the_page(void)
{
    static const uint64_t indices[] = {0, 1, 7, 510, 511};
    named a = OPEN_PAGE;
    size_t i, j;
    for (i = 0; i < sizeof PAGES / sizeof *PAGES; i++) {
        a.va = PAGES[i].va;
        comes_to(PAGES + i, a);
        for (j = 0; j < sizeof indices / sizeof *indices; j++) {
            is_plain_call(a, PRIVATE, indices[j]);
            is_plain_call(a, MERGEABLE, indices[j]);
        }
    }
}

/* At the page, 5 with each reason, and what a fixed page's leaf gives: read_va alone looks at it. */
static void broken_page(void)
{
    static const change bad[] = {
        {ENTRY(PAGE), 0x150007, 5, SKORBILEK_REASON_SPARE_BITS},
        {ENTRY(PAGE), 0x50000, 5, SKORBILEK_REASON_ASID},
        {ENTRY(PAGE), 0x90007, 5, SKORBILEK_REASON_FLAGS},
        {ADDRESS(PAGE), 0x30241804001, 5, SKORBILEK_REASON_ADDRESS},
    };
    static const change leaf[] = {
        {WORD(LEAF_PAGE, GUEST), 0x30241806801, 12, 0},
        {ENTRY(LEAF_PAGE), 0x30007, 12, 0},
        {WORD(LEAF_PAGE, GUEST), 0x30241806000, 13, 0},
        {WORD(LEAF_PAGE, GUEST), 0x30241807001, 8, 0},
    };
    named a = OPEN_PAGE;
    size_t i;
    for (i = 0; i < 4; i++) {
        const skorbilek_answer said = no(bad[i].refusal, bad[i].reason);
        start_with(bad + i, 1);
        right(is_answer(skorbilek_pvalidate_va(LENT, NAMED(OPEN_PAGE), PRIVATE), said), "pvalidate_va: not this reason", OPEN_PAGE);
        right(is_answer(skorbilek_read_va(LENT, NAMED(OPEN_PAGE), 0), said), "read_va: not this reason", OPEN_PAGE);
        right(is_answer(skorbilek_write_va(LENT, NAMED(OPEN_PAGE), 0, 1), said), "write_va: not this reason", OPEN_PAGE);
        right(is_as_kept(), "5, and changes a word", OPEN_PAGE);
    }
    a.va = 0xffff8080c0a16000;
    for (i = 0; i < 4; i++) {
        start_with(leaf + i, 1);
        right(is_answer(skorbilek_pvalidate_va(LENT, NAMED(a), MERGEABLE), no(10, 0)), "pvalidate_va: not 10", a);
        right(is_answer(skorbilek_read_va(LENT, NAMED(a), 0), no(leaf[i].refusal, 0)), "read_va: not as the leaf says", a);
        right(is_answer(skorbilek_write_va(LENT, NAMED(a), 0, 1), no(10, 0)), "write_va: not 10", a);
        right(is_as_kept(), "refused for the leaf or as fixed, and changes a word", a);
    }
}

int main(void)
{
    geometry();
    argument();
    more_arguments();
    caller_and_roots();
    order();
    table_entries();
    table_reads();
    merged_table();
    other_ways();
    at_the_page();
    broken_page();
    printf("%d cases, %d wrong\n", cases, faults);
    return faults == 0 ? 0 : 1;
}
