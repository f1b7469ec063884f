/*
 * The nine calls of the Skorbilek page ownership monitor, whole shared pages, and calls by virtual address, for C11 and C++.
 *
 * Link with libskorbilek.a, which `./skorbilek build` makes. docs/CALLS.md has each call's checks in order, what it changes and what it
 * answers; that the functions follow these rules, on every input, is proved (docs/PROMISES.md).
 *
 * Table and memory are runs of 64-bit words that the caller lends, each as a pointer and a number of words (not bytes). Any words will
 * do, and any numbers as arguments: every call checks all of them itself and answers. A wrong length is refusal 1. What a caller owes:
 *   - each pointer is aligned as a uint64_t, is not NULL, and points to that many words; no two runs overlap;
 *   - nobody else touches table and memory while a call runs, but for other calls that take both as const;
 *   - a pointer that skorbilek_page_read returned is not used any more once its frame may be a guest's page;
 *   - a run of calls starts with a table of zeros, and nothing but these calls changes table and memory from then on. (This one is for
 *     the promise that no counter goes back. Without it every call still answers by its rule.)
 * The library keeps no state, allocates nothing, and calls nothing but memset and memmove.
 */
#ifndef SKORBILEK_H
#define SKORBILEK_H

#include <stddef.h>
#include <stdint.h>

#ifdef __cplusplus
extern "C" {
#endif

/* Sizes. With N frames in the table and M in memory: 1 <= N <= 4,096 and N <= M <= 8,192. */
enum {
    SKORBILEK_FRAME_BYTES = 4096, /* bytes of a frame; addresses are multiples of it below 2^52 */
    SKORBILEK_FRAME_WORDS = 512,  /* words of a frame: memory has 512 * M words */
    SKORBILEK_ENTRY_WORDS = 2,    /* words of an entry: the table has 2 * N words */
    SKORBILEK_MAX_ENTRIES = 4096, /* the greatest N */
    SKORBILEK_MAX_FRAMES = 8192,  /* the greatest M */
    SKORBILEK_MAX_ASID = 511      /* guests are 1 to 511; 0 is the host */
};

/* Types of a page: the argument `type` of rmpupdate and pvalidate, `gtype` and `ntype` of read and write, `root_type` of a walk. */
enum {
    SKORBILEK_TYPE_SHARED = 0,    /* nobody's: any party may read and write it */
    SKORBILEK_TYPE_PRIVATE = 1,   /* a guest's own */
    SKORBILEK_TYPE_MERGEABLE = 2, /* a guest's own, and may be merged with equal ones */
    SKORBILEK_TYPE_LEAF = 3       /* holds the guests of a merged page: no party may read or write it */
};

/* What kind of answer it is, and which fields of skorbilek_answer it fills. */
enum {
    SKORBILEK_REFUSED = 0, /* any call: `refusal` says why, with 5 `reason` too; table and memory are as they were */
    SKORBILEK_DONE = 1,    /* pfix, pmerge, punmerge, write, page_check, page_write: accepted; write_va: accepted, at `gpa` */
    SKORBILEK_NONE = 2,    /* rmpupdate: accepted, and no open page was closed */
    SKORBILEK_CLOSED = 3,  /* rmpupdate: accepted, and the page of guest `asid` at `gpa` was closed */
    SKORBILEK_OPENED = 4,  /* pvalidate: the page is open now; pvalidate_va: it is at `gpa` */
    SKORBILEK_ALREADY = 5, /* pvalidate: the page was open already; pvalidate_va: it is at `gpa` */
    SKORBILEK_WORD = 6,    /* read: `value` is the word; read_va: of the page at `gpa` */
    SKORBILEK_COUNT = 7,   /* census: `value` is the number of places */
    SKORBILEK_UNFIXED = 8  /* punfix: accepted, and the page is guest `asid`'s now, or nobody's where `asid` is 0 */
};

/* Why a call was refused. The checks of a call are made in a fixed order, and the first that fails gives its number. */
enum {
    SKORBILEK_REFUSAL_GEOMETRY = 1,       /* the lengths of table and memory break the sizes */
    SKORBILEK_REFUSAL_ARGUMENT = 2,       /* no address, an ASID or word index above 511, a type not allowed, a run that is no page */
    SKORBILEK_REFUSAL_CALLER = 3,         /* the call is not this party's */
    SKORBILEK_REFUSAL_OUTSIDE = 4,        /* a named frame is N or above (read, write, pages: M or above) */
    SKORBILEK_REFUSAL_BAD_ENTRY = 5,      /* the entry of a named frame is not well formed: `reason` says what is bad in it */
    SKORBILEK_REFUSAL_TYPE = 6,           /* the type is not the one needed */
    SKORBILEK_REFUSAL_OWNER = 7,          /* the page is another party's */
    SKORBILEK_REFUSAL_ADDRESS = 8,        /* the page is at another guest address */
    SKORBILEK_REFUSAL_NOT_VALIDATED = 9,  /* the guest has not accepted the page */
    SKORBILEK_REFUSAL_FIXED = 10,         /* the page is fixed and must not be */
    SKORBILEK_REFUSAL_NOT_FIXED = 11,     /* the page is not fixed and must be */
    SKORBILEK_REFUSAL_BROKEN_LEAF = 12,   /* the leaf's entry is no well formed LEAF, or its word is misshapen (punfix: or at index 0) */
    SKORBILEK_REFUSAL_NO_PLACE = 13,      /* the guest has no place in the fixed page */
    SKORBILEK_REFUSAL_PLACE_TAKEN = 14,   /* the guest has a place in the fixed page already */
    SKORBILEK_REFUSAL_LEAF_IN_USE = 15,   /* another fixed page has this leaf */
    SKORBILEK_REFUSAL_CONTENTS = 16,      /* the two frames differ */
    SKORBILEK_REFUSAL_STILL_SHARED = 17,  /* two or more words of the leaf are present, misshapen or not */
    SKORBILEK_REFUSAL_ABSENT_ENTRY = 18,  /* by virtual address: an entry of a page table is not present */
    SKORBILEK_REFUSAL_LARGE_PAGE = 19     /* by virtual address: an entry of a page table above the last level has bit 7 set */
};

/* What is bad in the entry that SKORBILEK_REFUSAL_BAD_ENTRY is given for. The rules of an entry are looked at in this order, and the first
   that is broken gives its number. Where two named frames have a bad entry, the one that comes first among the arguments decides; in
   census the lowest such frame does. */
enum {
    SKORBILEK_REASON_SPARE_BITS = 1, /* a bit of word 0 above FIXED, 63 to 20, is set */
    SKORBILEK_REASON_ASID = 2,       /* SHARED or LEAF with an ASID; PRIVATE or MERGEABLE with none, or with one above 511 */
    SKORBILEK_REASON_FLAGS = 3,      /* SHARED or LEAF with a flag; PRIVATE and FIXED; FIXED and not VALIDATED */
    SKORBILEK_REASON_ADDRESS = 4     /* word 1 of SHARED or LEAF is not 0; else it is no address, or, with FIXED, of no frame below N */
};

/* An answer. A field that its kind does not fill is 0. A call was accepted where `kind != SKORBILEK_REFUSED`. */
typedef struct skorbilek_answer {
    uint64_t refusal; /* the refusal's number, 1 to 19; 0 if the call was accepted */
    uint64_t kind;    /* SKORBILEK_REFUSED .. SKORBILEK_UNFIXED */
    uint64_t asid;    /* CLOSED: whose page; UNFIXED: whose page it is now, 0 for nobody's */
    uint64_t gpa;     /* CLOSED: the address that it had; accepted by virtual address: the page's guest address */
    uint64_t value;   /* WORD: the word; COUNT: how many places */
    uint64_t reason;  /* with refusal 5, SKORBILEK_REASON_SPARE_BITS .. SKORBILEK_REASON_ADDRESS; else 0 */
} skorbilek_answer;

/* RMPUPDATE: the host gives the frame at hpa to guest asid at its address gpa, or makes it SHARED or a LEAF (asid and gpa 0).
   Answers NONE or CLOSED. */
skorbilek_answer skorbilek_rmpupdate(uint64_t *table, size_t table_words, uint64_t *memory, size_t memory_words, uint64_t caller,
                                     uint64_t hpa, uint64_t gpa, uint64_t asid, uint64_t type);

/* PVALIDATE: the guest `caller` accepts the frame at hpa as its page at gpa. Answers OPENED or ALREADY. */
skorbilek_answer skorbilek_pvalidate(uint64_t *table, size_t table_words, const uint64_t *memory, size_t memory_words,
                                     uint64_t caller, uint64_t gpa, uint64_t hpa, uint64_t type);

/* PFIX: the host fixes the MERGEABLE page at hpa, with the LEAF at `leaf`, so that others can be merged into it. Answers DONE. */
skorbilek_answer skorbilek_pfix(uint64_t *table, size_t table_words, uint64_t *memory, size_t memory_words, uint64_t caller,
                                uint64_t hpa, uint64_t leaf);

/* PMERGE: the host merges the page at hpa2 into the fixed page at hpa1, which has equal contents; hpa2 becomes SHARED. Where it compares
   the two frames it reads all of both, by the same instructions whatever they hold: which words differ, the time does not tell. Answers
   DONE. */
skorbilek_answer skorbilek_pmerge(uint64_t *table, size_t table_words, uint64_t *memory, size_t memory_words, uint64_t caller,
                                  uint64_t hpa1, uint64_t hpa2);

/* PUNMERGE: the host moves guest asid out of the fixed page at hpa1 into a copy in the SHARED frame at hpa2. Answers DONE. */
skorbilek_answer skorbilek_punmerge(uint64_t *table, size_t table_words, uint64_t *memory, size_t memory_words, uint64_t caller,
                                    uint64_t hpa1, uint64_t hpa2, uint64_t asid);

/* PUNFIX: the host gives the fixed page at hpa to the only guest that is left in it, or, where none is, makes it SHARED, with all words
   zero. Its leaf becomes SHARED. Answers UNFIXED. */
skorbilek_answer skorbilek_punfix(uint64_t *table, size_t table_words, uint64_t *memory, size_t memory_words, uint64_t caller,
                                  uint64_t hpa);

/* READ: `caller` reads word `index` (0 to 511) of its page at gpa, in the frame at hpa. gtype and ntype are the types that guest and
   host give the page. Answers WORD. */
skorbilek_answer skorbilek_read(const uint64_t *table, size_t table_words, const uint64_t *memory, size_t memory_words,
                                uint64_t caller, uint64_t gpa, uint64_t hpa, uint64_t gtype, uint64_t ntype, uint64_t index);

/* WRITE: `caller` writes `value` to word `index` of its page at gpa, in the frame at hpa. Answers DONE. */
skorbilek_answer skorbilek_write(const uint64_t *table, size_t table_words, uint64_t *memory, size_t memory_words, uint64_t caller,
                                 uint64_t gpa, uint64_t hpa, uint64_t gtype, uint64_t ntype, uint64_t index, uint64_t value);

/* CENSUS: how many places guest asid has, over all its addresses. Anyone may call it. Answers COUNT. */
skorbilek_answer skorbilek_census(const uint64_t *table, size_t table_words, const uint64_t *memory, size_t memory_words,
                                  uint64_t asid);

/*
 * Whole shared pages: the 512 words of a SHARED frame at once. Any party may call. The checks are those of a read or write of its word 0
 * with both types SHARED, so that gpa has to be an address and is not used; the refusals are 1, 2, 4, 5 and 6.
 */

/* Whether `caller` may read the SHARED frame at hpa. Answers DONE. */
skorbilek_answer skorbilek_page_check(const uint64_t *table, size_t table_words, const uint64_t *memory, size_t memory_words,
                                      uint64_t caller, uint64_t gpa, uint64_t hpa);

/* `caller` writes 512 words to the SHARED frame at hpa. Any other number of words is refused with 2. `words` is no part of memory.
   Answers DONE. */
skorbilek_answer skorbilek_page_write(const uint64_t *table, size_t table_words, uint64_t *memory, size_t memory_words,
                                      uint64_t caller, uint64_t gpa, uint64_t hpa, const uint64_t *words, size_t words_count);

/* `caller` reads the SHARED frame at hpa: returns a pointer to its 512 words, or NULL where it is refused; skorbilek_page_check says why.
   The words are those of the caller's memory itself, no copy, and change as it does. That the frame is SHARED was checked once: fetch
   the pointer again after any call that can make it a guest's page or a LEAF (rmpupdate, punmerge). */
static inline const uint64_t *skorbilek_page_read(const uint64_t *table, size_t table_words, const uint64_t *memory,
                                                  size_t memory_words, uint64_t caller, uint64_t gpa, uint64_t hpa)
{
    skorbilek_answer answer = skorbilek_page_check(table, table_words, memory, memory_words, caller, gpa, hpa);
    return answer.kind == SKORBILEK_DONE ? memory + hpa / sizeof *memory : NULL;
}

/*
 * Calls by virtual address. A guest names a page by its virtual address `va`, and the library walks the page tables to it. There are four
 * levels, as in the public x86-64 architecture: bits 47:39, 38:30, 29:21 and 20:12 of an address are the indices. An entry has present in
 * bit 0, large page in bit 7 (not at the last level), an address in bits 51:12 and a type in bits 53:52; all other bits are ignored.
 *   - caller     the guest, 1 to 511. Its tables are read as its own reads would be, so they lie in pages that it has opened, or SHARED;
 *   - root       the guest address of its top table. From there down each entry has a guest address, and the type of what is there;
 *   - root_type  the type of the top table, SHARED, PRIVATE or MERGEABLE: no entry has it;
 *   - host_root  the host physical address of the host's top table. The host's tables lead from guest addresses, below 2^48, to frames, and
 *                the last entry has the host's type. They are read as SHARED frames, by the host. Every guest address goes through them;
 *   - va         the virtual address: a multiple of 4,096, and bits 63:48 are like bit 47.
 * The refusals, in this order: 1; 2 for an argument; 3 for caller 0; then, each where it is met on the way, 2 for a guest address of 2^48
 * or more, that of a read of a table (4 to 9, 12, 13; 5 with its reason), and for an entry 18, 19, and 6 if its type is LEAF (in the
 * host's tables at the last level only). In the walk's answer and in those of the three calls they are the same.
 */

/* Where a virtual address leads. With a refusal the last four are 0. A virtual address leads to a page where `refusal == 0`. */
typedef struct skorbilek_mapping {
    uint64_t refusal; /* the refusal's number; 0 if there is none */
    uint64_t reason;  /* with refusal 5, SKORBILEK_REASON_SPARE_BITS .. SKORBILEK_REASON_ADDRESS; else 0 */
    uint64_t gpa;     /* the page's guest address, as the guest's last entry has it */
    uint64_t hpa;     /* the host physical address of its frame, as the host's last entry has it. There need not be such a frame */
    uint64_t gtype;   /* the type that the guest's last entry has, SHARED, PRIVATE or MERGEABLE */
    uint64_t ntype;   /* the type that the host's last entry has, SHARED, PRIVATE or MERGEABLE */
} skorbilek_mapping;

/* The walk alone: where va leads the guest `caller`. It changes nothing, and does not look at the page itself. The refusals are 1 to 9, 12,
   13, 18 and 19. */
skorbilek_mapping skorbilek_walk(const uint64_t *table, size_t table_words, const uint64_t *memory, size_t memory_words,
                                 uint64_t caller, uint64_t root, uint64_t root_type, uint64_t host_root, uint64_t va);

/* PVALIDATE by virtual address: the guest `caller` accepts the frame that va leads to as its page at the guest address that va leads to.
   The type is the call's, and 2 is given for it before the walk; the two types that the walk finds are not compared with it. After the walk
   it is skorbilek_pvalidate: it changes what that does, and gives 10 too. Answers OPENED or ALREADY, with gpa. */
skorbilek_answer skorbilek_pvalidate_va(uint64_t *table, size_t table_words, const uint64_t *memory, size_t memory_words,
                                        uint64_t caller, uint64_t root, uint64_t root_type, uint64_t host_root, uint64_t va,
                                        uint64_t type);

/* READ by virtual address: the guest `caller` reads word `index` (0 to 511, else 2 before the walk) of the page that va leads to. After the
   walk it is skorbilek_read with what the walk found. It changes nothing. Answers WORD, with gpa. */
skorbilek_answer skorbilek_read_va(const uint64_t *table, size_t table_words, const uint64_t *memory, size_t memory_words,
                                   uint64_t caller, uint64_t root, uint64_t root_type, uint64_t host_root, uint64_t va,
                                   uint64_t index);

/* WRITE by virtual address: the guest `caller` writes `value` to word `index` (0 to 511, else 2 before the walk) of the page that va leads
   to. After the walk it is skorbilek_write with what the walk found: it changes that word, and gives 10 too. Answers DONE, with gpa. */
skorbilek_answer skorbilek_write_va(const uint64_t *table, size_t table_words, uint64_t *memory, size_t memory_words,
                                    uint64_t caller, uint64_t root, uint64_t root_type, uint64_t host_root, uint64_t va,
                                    uint64_t index, uint64_t value);

#ifdef __cplusplus
}
#endif

#endif
