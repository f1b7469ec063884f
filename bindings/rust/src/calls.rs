//! The library's functions: the nine calls, the check and the writing of a whole shared page, and the four calls by virtual address. This
//! is the only file with unsafe code: each function hands the pointers and lengths of its slices to the library.
//!
//! What the library asks of a caller is true of a slice by its type: a pointer that is not null, aligned, to that many words, which
//! nobody else writes to meanwhile. Two slices of which one is `&mut` do not overlap. Whatever words and numbers are, it answers.
#![allow(unsafe_code)]

use crate::answer::{Answer, Flat, Refusal};
use crate::mapping::{FlatMapping, Mapping, Reached};

// As `include/skorbilek.h` has them.
#[rustfmt::skip]
extern "C" {
    fn skorbilek_rmpupdate(table: *mut u64, table_words: usize, memory: *mut u64, memory_words: usize,
        caller: u64, hpa: u64, gpa: u64, asid: u64, kind: u64) -> Flat;
    fn skorbilek_pvalidate(table: *mut u64, table_words: usize, memory: *const u64, memory_words: usize,
        caller: u64, gpa: u64, hpa: u64, kind: u64) -> Flat;
    fn skorbilek_pfix(table: *mut u64, table_words: usize, memory: *mut u64, memory_words: usize,
        caller: u64, hpa: u64, leaf: u64) -> Flat;
    fn skorbilek_pmerge(table: *mut u64, table_words: usize, memory: *mut u64, memory_words: usize,
        caller: u64, hpa1: u64, hpa2: u64) -> Flat;
    fn skorbilek_punmerge(table: *mut u64, table_words: usize, memory: *mut u64, memory_words: usize,
        caller: u64, hpa1: u64, hpa2: u64, asid: u64) -> Flat;
    fn skorbilek_punfix(table: *mut u64, table_words: usize, memory: *mut u64, memory_words: usize,
        caller: u64, hpa: u64) -> Flat;
    fn skorbilek_read(table: *const u64, table_words: usize, memory: *const u64, memory_words: usize,
        caller: u64, gpa: u64, hpa: u64, gtype: u64, ntype: u64, index: u64) -> Flat;
    fn skorbilek_write(table: *const u64, table_words: usize, memory: *mut u64, memory_words: usize,
        caller: u64, gpa: u64, hpa: u64, gtype: u64, ntype: u64, index: u64, value: u64) -> Flat;
    fn skorbilek_census(table: *const u64, table_words: usize, memory: *const u64, memory_words: usize,
        asid: u64) -> Flat;
    fn skorbilek_page_check(table: *const u64, table_words: usize, memory: *const u64, memory_words: usize,
        caller: u64, gpa: u64, hpa: u64) -> Flat;
    fn skorbilek_page_write(table: *const u64, table_words: usize, memory: *mut u64, memory_words: usize,
        caller: u64, gpa: u64, hpa: u64, words: *const u64, words_count: usize) -> Flat;
    fn skorbilek_walk(table: *const u64, table_words: usize, memory: *const u64, memory_words: usize,
        caller: u64, root: u64, root_type: u64, host_root: u64, va: u64) -> FlatMapping;
    fn skorbilek_pvalidate_va(table: *mut u64, table_words: usize, memory: *const u64, memory_words: usize,
        caller: u64, root: u64, root_type: u64, host_root: u64, va: u64, kind: u64) -> Flat;
    fn skorbilek_read_va(table: *const u64, table_words: usize, memory: *const u64, memory_words: usize,
        caller: u64, root: u64, root_type: u64, host_root: u64, va: u64, index: u64) -> Flat;
    fn skorbilek_write_va(table: *const u64, table_words: usize, memory: *mut u64, memory_words: usize,
        caller: u64, root: u64, root_type: u64, host_root: u64, va: u64, index: u64, value: u64) -> Flat;
}

/// RMPUPDATE: the host gives the frame at `hpa` to the guest `asid` at its address `gpa`, as a page of the type `kind`; or makes it
/// SHARED or a LEAF, with `asid` and `gpa` 0. Answers [`Answer::None`] or [`Answer::Closed`].
///
/// ```
/// # use skorbilek::{pvalidate, rmpupdate, Answer, Refusal, HOST, PRIVATE, SHARED};
/// # let (mut table, mut memory) = ([0; 16], vec![0; 5120]);
/// assert_eq!(rmpupdate(&mut table, &mut memory, HOST, 0x1000, 0x50000, 7, PRIVATE)?, Answer::None);
/// pvalidate(&mut table, &memory, 7, 0x50000, 0x1000, PRIVATE)?;
///
/// // the host takes the frame back, which closes the guest's page
/// let taken = rmpupdate(&mut table, &mut memory, HOST, 0x1000, 0, 0, SHARED)?;
/// assert_eq!(taken, Answer::Closed { asid: 7, gpa: 0x50000 });
///
/// // a guest can't
/// assert_eq!(rmpupdate(&mut table, &mut memory, 7, 0x1000, 0, 0, SHARED), Err(Refusal::Caller));
/// # Ok::<(), Refusal>(())
/// ```
#[inline]
#[allow(clippy::too_many_arguments)]
pub fn rmpupdate(
    table: &mut [u64],
    memory: &mut [u64],
    caller: u64,
    hpa: u64,
    gpa: u64,
    asid: u64,
    kind: u64,
) -> Result<Answer, Refusal> {
    let (t, n) = (table.as_mut_ptr(), table.len());
    let (m, w) = (memory.as_mut_ptr(), memory.len());
    // SAFETY: the pointers and lengths are those of slices (see the head of this file), as in every call below.
    unsafe { skorbilek_rmpupdate(t, n, m, w, caller, hpa, gpa, asid, kind) }.answer()
}

/// PVALIDATE: the guest `caller` accepts the frame at `hpa` as its page at `gpa`, of the type `kind`. Answers [`Answer::Opened`] or
/// [`Answer::Already`].
///
/// ```
/// # use skorbilek::{pvalidate, rmpupdate, Answer, Refusal, HOST, PRIVATE};
/// # let (mut table, mut memory) = ([0; 16], vec![0; 5120]);
/// rmpupdate(&mut table, &mut memory, HOST, 0x1000, 0x50000, 7, PRIVATE)?;
/// assert_eq!(pvalidate(&mut table, &memory, 9, 0x50000, 0x1000, PRIVATE), Err(Refusal::Owner));
/// assert_eq!(pvalidate(&mut table, &memory, 7, 0x50000, 0x1000, PRIVATE)?, Answer::Opened);
/// assert_eq!(pvalidate(&mut table, &memory, 7, 0x50000, 0x1000, PRIVATE)?, Answer::Already);
/// # Ok::<(), Refusal>(())
/// ```
#[inline]
pub fn pvalidate(
    table: &mut [u64],
    memory: &[u64],
    caller: u64,
    gpa: u64,
    hpa: u64,
    kind: u64,
) -> Result<Answer, Refusal> {
    let (t, n) = (table.as_mut_ptr(), table.len());
    let (m, w) = (memory.as_ptr(), memory.len());
    unsafe { skorbilek_pvalidate(t, n, m, w, caller, gpa, hpa, kind) }.answer()
}

/// PFIX: the host fixes the MERGEABLE page at `hpa`, with the LEAF at `leaf`, so that others can be merged into it. Answers
/// [`Answer::Done`].
///
/// ```
/// # use skorbilek::*;
/// # let (mut table, mut memory) = ([0; 16], vec![0; 5120]);
/// # rmpupdate(&mut table, &mut memory, HOST, 0x1000, 0x50000, 7, MERGEABLE)?;
/// # pvalidate(&mut table, &memory, 7, 0x50000, 0x1000, MERGEABLE)?;
/// // guest 7's page is in frame 1; frame 3 becomes its leaf
/// assert_eq!(pfix(&mut table, &mut memory, HOST, 0x1000, 0x3000), Err(Refusal::PageType));
/// rmpupdate(&mut table, &mut memory, HOST, 0x3000, 0, 0, LEAF)?;
/// pfix(&mut table, &mut memory, HOST, 0x1000, 0x3000)?;
/// # Ok::<(), Refusal>(())
/// ```
#[inline]
pub fn pfix(
    table: &mut [u64],
    memory: &mut [u64],
    caller: u64,
    hpa: u64,
    leaf: u64,
) -> Result<Answer, Refusal> {
    let (t, n) = (table.as_mut_ptr(), table.len());
    let (m, w) = (memory.as_mut_ptr(), memory.len());
    unsafe { skorbilek_pfix(t, n, m, w, caller, hpa, leaf) }.answer()
}

/// PMERGE: the host merges the page at `hpa2` into the fixed page at `hpa1`, which has equal contents; the frame at `hpa2` becomes
/// SHARED. Answers [`Answer::Done`]. Where it compares the two frames it reads all of both, by the same instructions whatever they
/// hold: which words differ, the time does not tell.
///
/// ```
/// # use skorbilek::*;
/// # let (mut table, mut memory) = ([0; 16], vec![0; 5120]);
/// // two guests, each with a page of zeros
/// for (guest, gpa, hpa) in [(7, 0x50000, 0x1000), (9, 0x60000, 0x2000)] {
///     rmpupdate(&mut table, &mut memory, HOST, hpa, gpa, guest, MERGEABLE)?;
///     pvalidate(&mut table, &memory, guest, gpa, hpa, MERGEABLE)?;
/// }
///
/// // the host makes frame 3 a leaf, fixes guest 7's page with it, and merges guest 9's page into that
/// rmpupdate(&mut table, &mut memory, HOST, 0x3000, 0, 0, LEAF)?;
/// pfix(&mut table, &mut memory, HOST, 0x1000, 0x3000)?;
/// pmerge(&mut table, &mut memory, HOST, 0x1000, 0x2000)?;
///
/// // guest 9 reads its page through frame 1 now, and nobody can write there
/// let word = read(&table, &memory, 9, 0x60000, 0x1000, MERGEABLE, MERGEABLE, 3)?;
/// assert_eq!(word, Answer::Word(0));
/// let written = write(&table, &mut memory, 7, 0x50000, 0x1000, MERGEABLE, MERGEABLE, 3, 1);
/// assert_eq!(written, Err(Refusal::Fixed));
/// # Ok::<(), Refusal>(())
/// ```
#[inline]
pub fn pmerge(
    table: &mut [u64],
    memory: &mut [u64],
    caller: u64,
    hpa1: u64,
    hpa2: u64,
) -> Result<Answer, Refusal> {
    let (t, n) = (table.as_mut_ptr(), table.len());
    let (m, w) = (memory.as_mut_ptr(), memory.len());
    unsafe { skorbilek_pmerge(t, n, m, w, caller, hpa1, hpa2) }.answer()
}

/// PUNMERGE: the host moves the guest `asid` out of the fixed page at `hpa1` into a copy in the SHARED frame at `hpa2`. Answers
/// [`Answer::Done`].
///
/// ```
/// # use skorbilek::*;
/// # let (mut table, mut memory) = ([0; 16], vec![0; 5120]);
/// # rmpupdate(&mut table, &mut memory, HOST, 0x1000, 0x50000, 7, MERGEABLE)?;
/// # pvalidate(&mut table, &memory, 7, 0x50000, 0x1000, MERGEABLE)?;
/// # rmpupdate(&mut table, &mut memory, HOST, 0x3000, 0, 0, LEAF)?;
/// # pfix(&mut table, &mut memory, HOST, 0x1000, 0x3000)?;
/// // guest 7 is in the fixed page in frame 1; guest 8 is not
/// assert_eq!(punmerge(&mut table, &mut memory, HOST, 0x1000, 0x4000, 8), Err(Refusal::NoPlace));
/// punmerge(&mut table, &mut memory, HOST, 0x1000, 0x4000, 7)?;
/// write(&table, &mut memory, 7, 0x50000, 0x4000, MERGEABLE, MERGEABLE, 3, 1)?;
/// # Ok::<(), Refusal>(())
/// ```
#[inline]
pub fn punmerge(
    table: &mut [u64],
    memory: &mut [u64],
    caller: u64,
    hpa1: u64,
    hpa2: u64,
    asid: u64,
) -> Result<Answer, Refusal> {
    let (t, n) = (table.as_mut_ptr(), table.len());
    let (m, w) = (memory.as_mut_ptr(), memory.len());
    unsafe { skorbilek_punmerge(t, n, m, w, caller, hpa1, hpa2, asid) }.answer()
}

/// PUNFIX: the host gives the fixed page at `hpa` to the only guest that is left in it, or, where none is, makes it SHARED, with all words
/// zero. Its leaf becomes SHARED. Answers [`Answer::Unfixed`].
///
/// ```
/// # use skorbilek::*;
/// # let (mut table, mut memory) = ([0; 16], vec![0; 5120]);
/// # for (guest, gpa, hpa) in [(7, 0x50000, 0x1000), (9, 0x60000, 0x2000)] {
/// #     rmpupdate(&mut table, &mut memory, HOST, hpa, gpa, guest, MERGEABLE)?;
/// #     pvalidate(&mut table, &memory, guest, gpa, hpa, MERGEABLE)?;
/// # }
/// # rmpupdate(&mut table, &mut memory, HOST, 0x3000, 0, 0, LEAF)?;
/// # pfix(&mut table, &mut memory, HOST, 0x1000, 0x3000)?;
/// # pmerge(&mut table, &mut memory, HOST, 0x1000, 0x2000)?;
/// // guests 7 and 9 are in the fixed page in frame 1, which is guest 7's
/// assert_eq!(punfix(&mut table, &mut memory, HOST, 0x1000), Err(Refusal::StillShared));
///
/// // guest 7 leaves it, so that it becomes guest 9's
/// punmerge(&mut table, &mut memory, HOST, 0x1000, 0x2000, 7)?;
/// assert_eq!(punfix(&mut table, &mut memory, HOST, 0x1000)?, Answer::Unfixed { asid: 9 });
/// write(&table, &mut memory, 9, 0x60000, 0x1000, MERGEABLE, MERGEABLE, 3, 1)?;
/// # Ok::<(), Refusal>(())
/// ```
#[inline]
pub fn punfix(
    table: &mut [u64],
    memory: &mut [u64],
    caller: u64,
    hpa: u64,
) -> Result<Answer, Refusal> {
    let (t, n) = (table.as_mut_ptr(), table.len());
    let (m, w) = (memory.as_mut_ptr(), memory.len());
    unsafe { skorbilek_punfix(t, n, m, w, caller, hpa) }.answer()
}

/// READ: `caller` reads word `index` (0 to 511) of its page at `gpa`, in the frame at `hpa`. `gtype` and `ntype` are the types that
/// the guest and the host give the page. Answers [`Answer::Word`].
///
/// ```
/// # use skorbilek::{read, Answer, Refusal, HOST, PRIVATE, SHARED};
/// # let (table, mut memory) = ([0; 16], vec![0; 5120]);
/// // any party reads a SHARED frame; the host can't read any other
/// memory[512 * 2 + 3] = 42;
/// assert_eq!(read(&table, &memory, HOST, 0, 0x2000, SHARED, SHARED, 3)?, Answer::Word(42));
/// assert_eq!(read(&table, &memory, HOST, 0, 0x2000, PRIVATE, PRIVATE, 3), Err(Refusal::Caller));
/// # Ok::<(), Refusal>(())
/// ```
#[inline]
#[allow(clippy::too_many_arguments)]
pub fn read(
    table: &[u64],
    memory: &[u64],
    caller: u64,
    gpa: u64,
    hpa: u64,
    gtype: u64,
    ntype: u64,
    index: u64,
) -> Result<Answer, Refusal> {
    let (t, n) = (table.as_ptr(), table.len());
    let (m, w) = (memory.as_ptr(), memory.len());
    unsafe { skorbilek_read(t, n, m, w, caller, gpa, hpa, gtype, ntype, index) }.answer()
}

/// WRITE: `caller` writes `value` to word `index` of its page at `gpa`, in the frame at `hpa`. Answers [`Answer::Done`].
///
/// ```
/// # use skorbilek::{write, Answer, Refusal, HOST, SHARED};
/// # let (table, mut memory) = ([0; 16], vec![0; 5120]);
/// write(&table, &mut memory, HOST, 0, 0x2000, SHARED, SHARED, 3, 42)?;
/// assert_eq!(memory[512 * 2 + 3], 42);
/// assert_eq!(write(&table, &mut memory, HOST, 0, 0x2000, SHARED, SHARED, 512, 42), Err(Refusal::Argument));
/// # Ok::<(), Refusal>(())
/// ```
#[inline]
#[allow(clippy::too_many_arguments)]
pub fn write(
    table: &[u64],
    memory: &mut [u64],
    caller: u64,
    gpa: u64,
    hpa: u64,
    gtype: u64,
    ntype: u64,
    index: u64,
    value: u64,
) -> Result<Answer, Refusal> {
    let (t, n) = (table.as_ptr(), table.len());
    let (m, w) = (memory.as_mut_ptr(), memory.len());
    unsafe { skorbilek_write(t, n, m, w, caller, gpa, hpa, gtype, ntype, index, value) }.answer()
}

/// CENSUS: how many places the guest `asid` has, over all its addresses. Anyone may call it. Answers [`Answer::Count`].
///
/// ```
/// # use skorbilek::{census, Answer, Refusal};
/// # let (table, memory) = ([0; 16], vec![0; 5120]);
/// assert_eq!(census(&table, &memory, 7)?, Answer::Count(0));
/// assert_eq!(census(&table[1..], &memory, 7), Err(Refusal::Geometry));
/// # Ok::<(), Refusal>(())
/// ```
#[inline]
pub fn census(table: &[u64], memory: &[u64], asid: u64) -> Result<Answer, Refusal> {
    let (t, n) = (table.as_ptr(), table.len());
    let (m, w) = (memory.as_ptr(), memory.len());
    unsafe { skorbilek_census(t, n, m, w, asid) }.answer()
}

/// Whether `caller` may read the whole SHARED frame at `hpa` by [`page_read`](crate::page_read). The checks are those of a [`read()`] of
/// its word 0 with both types SHARED; `gpa` has to be an address and is not used. Answers [`Answer::Done`].
///
/// ```
/// # use skorbilek::{page_check, rmpupdate, Answer, Refusal, HOST, PRIVATE};
/// # let (mut table, mut memory) = ([0; 16], vec![0; 5120]);
/// // any party may read a SHARED frame, and nobody by this call once it is a guest's
/// assert_eq!(page_check(&table, &memory, HOST, 0, 0x1000)?, Answer::Done);
/// assert_eq!(page_check(&table, &memory, 7, 0x50000, 0x1000)?, Answer::Done);
/// rmpupdate(&mut table, &mut memory, HOST, 0x1000, 0x50000, 7, PRIVATE)?;
/// assert_eq!(page_check(&table, &memory, 7, 0x50000, 0x1000), Err(Refusal::PageType));
/// # Ok::<(), Refusal>(())
/// ```
#[inline]
pub fn page_check(
    table: &[u64],
    memory: &[u64],
    caller: u64,
    gpa: u64,
    hpa: u64,
) -> Result<Answer, Refusal> {
    let (t, n) = (table.as_ptr(), table.len());
    let (m, w) = (memory.as_ptr(), memory.len());
    unsafe { skorbilek_page_check(t, n, m, w, caller, gpa, hpa) }.answer()
}

/// `caller` writes the whole SHARED frame at `hpa`: `words` are its 512 words from now on. The checks are those of a [`write()`] of its
/// word 0 with both types SHARED; another number of words is refused with 2. Answers [`Answer::Done`].
///
/// ```
/// # use skorbilek::{page_write, Refusal, FRAME_WORDS, HOST};
/// # let (table, mut memory) = ([0; 16], vec![0; 5120]);
/// let sector = [42; FRAME_WORDS];
/// page_write(&table, &mut memory, HOST, 0, 0x2000, &sector)?;
/// assert_eq!(memory[512 * 2..512 * 3], sector);
/// assert_eq!(page_write(&table, &mut memory, HOST, 0, 0x2000, &sector[1..]), Err(Refusal::Argument));
/// # Ok::<(), Refusal>(())
/// ```
#[inline]
pub fn page_write(
    table: &[u64],
    memory: &mut [u64],
    caller: u64,
    gpa: u64,
    hpa: u64,
    words: &[u64],
) -> Result<Answer, Refusal> {
    let (t, n) = (table.as_ptr(), table.len());
    let (m, w) = (memory.as_mut_ptr(), memory.len());
    let (p, k) = (words.as_ptr(), words.len());
    unsafe { skorbilek_page_write(t, n, m, w, caller, gpa, hpa, p, k) }.answer()
}

/// The walk: where the virtual address `va` of the guest `caller` leads, by its own page tables and the host's. The guest's top table is
/// its page at `root`, of the type `root_type`; the host's is the SHARED frame at `host_root`. Every guest address on the way goes through
/// the host's tables first. Table and memory stay as they are.
///
/// Both tables have four levels, as those of x86-64 have: an entry has bit 0 where it is present, the address in bits 51 to 12 and the type
/// in bits 53 and 52.
///
/// ```
/// # use skorbilek::{pvalidate, rmpupdate, walk, write, Mapping, Refusal, HOST, PRIVATE, SHARED};
/// # let (mut table, mut memory) = ([0; 16], vec![0; 5120]);
/// // the host's table is in frame 0. Its word 0 is the table itself, so that one frame is the table of all four levels; it has the guest
/// // addresses 0x50000 and 0x51000 in frames 1 and 2, PRIVATE
/// for (index, entry) in [(0, 0x1), (0x50, 0x10000000001001), (0x51, 0x10000000002001)] {
///     write(&table, &mut memory, HOST, 0, 0, SHARED, SHARED, index, entry)?;
/// }
/// rmpupdate(&mut table, &mut memory, HOST, 0x1000, 0x50000, 7, PRIVATE)?;
/// rmpupdate(&mut table, &mut memory, HOST, 0x2000, 0x51000, 7, PRIVATE)?;
///
/// // guest 7 makes its page at 0x50000 its table, again of all levels: word 0 is the table itself, and word 3 the page at 0x51000
/// pvalidate(&mut table, &memory, 7, 0x50000, 0x1000, PRIVATE)?;
/// for (index, entry) in [(0, 0x10000000050001), (3, 0x10000000051001)] {
///     write(&table, &mut memory, 7, 0x50000, 0x1000, PRIVATE, PRIVATE, index, entry)?;
/// }
///
/// // virtual address 0x3000 is word 0 at the three upper levels, and word 3 at the last
/// let found = walk(&table, &memory, 7, 0x50000, PRIVATE, 0, 0x3000)?;
/// assert_eq!(found, Mapping { gpa: 0x51000, hpa: 0x2000, gtype: PRIVATE, ntype: PRIVATE });
/// assert_eq!(walk(&table, &memory, 7, 0x50000, PRIVATE, 0, 0x4000), Err(Refusal::AbsentEntry));
/// assert_eq!(walk(&table, &memory, 9, 0x50000, PRIVATE, 0, 0x3000), Err(Refusal::Owner));
/// # Ok::<(), Refusal>(())
/// ```
#[inline]
pub fn walk(
    table: &[u64],
    memory: &[u64],
    caller: u64,
    root: u64,
    root_type: u64,
    host_root: u64,
    va: u64,
) -> Result<Mapping, Refusal> {
    let (t, n) = (table.as_ptr(), table.len());
    let (m, w) = (memory.as_ptr(), memory.len());
    unsafe { skorbilek_walk(t, n, m, w, caller, root, root_type, host_root, va) }.mapping()
}

/// PVALIDATE by virtual address: the guest `caller` accepts the page that [`walk`] finds at `va`, as one of the type `kind`. Answers
/// [`Answer::Opened`] or [`Answer::Already`], with the guest address.
///
/// ```
/// # use skorbilek::{pvalidate_va, Answer, Reached, Refusal, PRIVATE};
/// # let mut table = [0, 0, 0x50007, 0x50000, 0x10007, 0x51000];
/// # let mut memory = vec![0; 512 * 3];
/// # (memory[0], memory[0x50], memory[0x51]) = (0x1, 0x10000000001001, 0x10000000002001);
/// # (memory[512], memory[512 + 3]) = (0x10000000050001, 0x10000000051001);
/// // the tables are those of the example of `walk`: 0x3000 leads to the page at 0x51000, which guest 7 has not opened yet
/// let opened = pvalidate_va(&mut table, &memory, 7, 0x50000, PRIVATE, 0, 0x3000, PRIVATE)?;
/// assert_eq!(opened, Reached { answer: Answer::Opened, gpa: 0x51000 });
/// let again = pvalidate_va(&mut table, &memory, 7, 0x50000, PRIVATE, 0, 0x3000, PRIVATE)?;
/// assert_eq!(again, Reached { answer: Answer::Already, gpa: 0x51000 });
/// # Ok::<(), Refusal>(())
/// ```
#[inline]
#[allow(clippy::too_many_arguments)]
pub fn pvalidate_va(
    table: &mut [u64],
    memory: &[u64],
    caller: u64,
    root: u64,
    root_type: u64,
    host_root: u64,
    va: u64,
    kind: u64,
) -> Result<Reached, Refusal> {
    let (t, n) = (table.as_mut_ptr(), table.len());
    let (m, w) = (memory.as_ptr(), memory.len());
    unsafe { skorbilek_pvalidate_va(t, n, m, w, caller, root, root_type, host_root, va, kind) }
        .reached()
}

/// READ by virtual address: `caller` reads word `index` of the page that [`walk`] finds at `va`, with the types that it finds. Answers
/// [`Answer::Word`], with the guest address.
///
/// ```
/// # use skorbilek::{read_va, Answer, Reached, Refusal, PRIVATE};
/// # let table = [0, 0, 0x50007, 0x50000, 0x50007, 0x51000];
/// # let mut memory = vec![0; 512 * 3];
/// # (memory[0], memory[0x50], memory[0x51]) = (0x1, 0x10000000001001, 0x10000000002001);
/// # (memory[512], memory[512 + 3]) = (0x10000000050001, 0x10000000051001);
/// // the tables are those of the example of `walk`, and guest 7 has opened both pages. It reads its table as the page at 0
/// let read = read_va(&table, &memory, 7, 0x50000, PRIVATE, 0, 0x0, 3)?;
/// assert_eq!(read, Reached { answer: Answer::Word(0x10000000051001), gpa: 0x50000 });
/// assert_eq!(read_va(&table, &memory, 7, 0x50000, PRIVATE, 0, 0x0, 512), Err(Refusal::Argument));
/// # Ok::<(), Refusal>(())
/// ```
#[inline]
#[allow(clippy::too_many_arguments)]
pub fn read_va(
    table: &[u64],
    memory: &[u64],
    caller: u64,
    root: u64,
    root_type: u64,
    host_root: u64,
    va: u64,
    index: u64,
) -> Result<Reached, Refusal> {
    let (t, n) = (table.as_ptr(), table.len());
    let (m, w) = (memory.as_ptr(), memory.len());
    unsafe { skorbilek_read_va(t, n, m, w, caller, root, root_type, host_root, va, index) }
        .reached()
}

/// WRITE by virtual address: `caller` writes `value` to word `index` of the page that [`walk`] finds at `va`, with the types that it finds.
/// Answers [`Answer::Done`], with the guest address.
///
/// ```
/// # use skorbilek::{read_va, write_va, Answer, Reached, Refusal, PRIVATE};
/// # let table = [0, 0, 0x50007, 0x50000, 0x50007, 0x51000];
/// # let mut memory = vec![0; 512 * 3];
/// # (memory[0], memory[0x50], memory[0x51]) = (0x1, 0x10000000001001, 0x10000000002001);
/// # (memory[512], memory[512 + 3]) = (0x10000000050001, 0x10000000051001);
/// // the tables are those of the example of `walk`, and guest 7 has opened both pages
/// let written = write_va(&table, &mut memory, 7, 0x50000, PRIVATE, 0, 0x3000, 5, 42)?;
/// assert_eq!(written, Reached { answer: Answer::Done, gpa: 0x51000 });
/// assert_eq!(memory[512 * 2 + 5], 42);
///
/// // by writing word 4 of its table it puts the page at 0x4000 too
/// write_va(&table, &mut memory, 7, 0x50000, PRIVATE, 0, 0x0, 4, 0x10000000051001)?;
/// assert_eq!(read_va(&table, &memory, 7, 0x50000, PRIVATE, 0, 0x4000, 5)?.answer, Answer::Word(42));
/// # Ok::<(), Refusal>(())
/// ```
#[inline]
#[allow(clippy::too_many_arguments)]
pub fn write_va(
    table: &[u64],
    memory: &mut [u64],
    caller: u64,
    root: u64,
    root_type: u64,
    host_root: u64,
    va: u64,
    index: u64,
    value: u64,
) -> Result<Reached, Refusal> {
    let (t, n) = (table.as_ptr(), table.len());
    let (m, w) = (memory.as_mut_ptr(), memory.len());
    unsafe {
        skorbilek_write_va(
            t, n, m, w, caller, root, root_type, host_root, va, index, value,
        )
    }
    .reached()
}
