//! The nine calls of the Skorbilek page ownership monitor, whole shared pages, and calls by virtual address, on a table and a memory that
//! the caller lends as slices.
//!
//! The table says which guest owns which page of memory. The host and the guests make calls on it, and the monitor checks each of them:
//! every call answers, whatever the slices and the numbers hold, and a refusal changes nothing. That each call follows its rule on
//! every input, and that no guest's page goes back to an older state, is proved; `docs/CALLS.md` of the repository has the rules and
//! `docs/PROMISES.md` what is proved of them. This crate only hands slices and numbers on to the proved library, `libskorbilek.a`, which
//! `./skorbilek build` makes.
//!
//! A call answers `Result<Answer, Refusal>`. The guest's counter below can't be read through an older copy of its page:
//!
//! ```
//! use skorbilek::{pvalidate, read, rmpupdate, write, Answer, Refusal, HOST, MERGEABLE};
//!
//! // N = 8 frames with an entry, M = 10 frames of memory; a table starts with zeros
//! let mut table = [0; 2 * 8];
//! let mut memory = vec![0; 512 * 10];
//!
//! // the host gives frame 1 to guest 7 at its address 0x50000, and the guest opens the page and writes to its word 3
//! rmpupdate(&mut table, &mut memory, HOST, 0x1000, 0x50000, 7, MERGEABLE)?;
//! assert_eq!(pvalidate(&mut table, &memory, 7, 0x50000, 0x1000, MERGEABLE)?, Answer::Opened);
//! write(&table, &mut memory, 7, 0x50000, 0x1000, MERGEABLE, MERGEABLE, 3, 42)?;
//!
//! // the host offers another frame at the same address: until the guest opens it, nothing can be read there
//! rmpupdate(&mut table, &mut memory, HOST, 0x2000, 0x50000, 7, MERGEABLE)?;
//! let old = read(&table, &memory, 7, 0x50000, 0x2000, MERGEABLE, MERGEABLE, 3);
//! assert_eq!(old, Err(Refusal::NotValidated));
//!
//! let word = read(&table, &memory, 7, 0x50000, 0x1000, MERGEABLE, MERGEABLE, 3)?;
//! assert_eq!(word, Answer::Word(42));
//! # Ok::<(), Refusal>(())
//! ```
//!
//! A driver that moves whole pages through SHARED frames calls [`page_write`] and [`page_read`], and not [`write()`] and [`read()`] once
//! for each word: the first takes 512 words, and the second hands back those of the frame, where they lie in memory. [`page_check`] makes
//! the checks alone.
//!
//! A guest that names a virtual address, as PVALIDATE does in the design, calls [`pvalidate_va`], [`read_va`] and [`write_va`]: they find
//! the guest address, the frame and the types in the page tables of guest and host, as [`walk`] does alone.
//!
//! [`Refusal::BadEntry`] carries a [`Reason`]: what is bad in the entry. No call gives it where the table started with zeros and nothing
//! but these calls has changed table and memory. To find all bad entries of a table, ask [`page_check`] about each of its frames:
//!
//! ```
//! use skorbilek::{page_check, Reason, Refusal, ENTRY_WORDS, FRAME_BYTES, HOST};
//!
//! // frame 1 is FIXED and not VALIDATED, and guest 7's page in frame 3 is at an address that is none
//! let table = [0, 0, 0xa0007, 0x2000, 0x30000, 0, 0x60007, 0x50800];
//! let memory = vec![0; 512 * 4];
//! let mut bad = Vec::new();
//! for frame in 0..table.len() / ENTRY_WORDS {
//!     let hpa = FRAME_BYTES * frame as u64;
//!     if let Err(Refusal::BadEntry(reason)) = page_check(&table, &memory, HOST, 0, hpa) {
//!         bad.push((frame, reason));
//!     }
//! }
//! assert_eq!(bad, [(1, Reason::Flags), (3, Reason::Address)]);
//! ```
//!
//! A run of calls starts with a table of zeros and any memory, and nothing but these calls changes the two from then on: on that the
//! promise that no counter goes back rests. `caller` is the number of the party for which a call is made.
#![deny(unsafe_code)]
#![warn(missing_docs)]

mod answer;
mod calls;
mod mapping;
mod pages;

pub use answer::{Answer, Reason, Refusal};
pub use calls::{census, pfix, pmerge, punfix, punmerge, pvalidate, read, rmpupdate, write};
pub use calls::{page_check, page_write};
pub use calls::{pvalidate_va, read_va, walk, write_va};
pub use mapping::{Mapping, Reached};
pub use pages::page_read;

/// The host's number as a caller. Guests are 1 to [`MAX_ASID`].
pub const HOST: u64 = 0;
/// The greatest number of a guest.
pub const MAX_ASID: u64 = 511;

/// The type of a page that is nobody's: any party may read and write it.
pub const SHARED: u64 = 0;
/// The type of a page that is a guest's own.
pub const PRIVATE: u64 = 1;
/// The type of a page that is a guest's own and may be merged with equal ones.
pub const MERGEABLE: u64 = 2;
/// The type of a page that holds the guests of a merged one: no party may read or write it.
pub const LEAF: u64 = 3;

/// Bytes of a frame. Addresses are multiples of it below 2^52.
pub const FRAME_BYTES: u64 = 4096;
/// Words of a frame: a memory of M frames has 512 * M words.
pub const FRAME_WORDS: usize = 512;
/// Words of an entry: a table of N frames has 2 * N words.
pub const ENTRY_WORDS: usize = 2;
/// The greatest N.
pub const MAX_ENTRIES: usize = 4096;
/// The greatest M; it is at least N.
pub const MAX_FRAMES: usize = 8192;
