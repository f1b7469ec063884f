//! A page ownership monitor: the nine calls of document 01, the three of
//! request Q-1 and the four of request Q-4 on a lent table and a lent memory,
//! the script program, and a ledger for demand 3. Refusals are those of request
//! Q-2, and PUNFIX is that of request Q-3.

#![forbid(unsafe_code)]

pub mod access;
pub mod call;
mod checks;
pub mod layout;
pub mod ledger;
pub mod pages;
pub mod rules;
pub mod script;
pub mod walk;

pub use access::{census, read, write};
pub use call::{Answer, Call, Refusal, Reply, Request};
pub use layout::{Entry, Kind, LeafWord, Reason};
pub use ledger::Ledger;
pub use pages::{page_check, page_read, page_write};
pub use rules::{pfix, pmerge, punfix, punmerge, pvalidate, rmpupdate};
pub use walk::{host_half, pvalidate_va, read_va, walk, write_va, Mapping, Reached, Virtual};
