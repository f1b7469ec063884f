//! Compares two monitors, and two script programs, on random requests; the same seed and size give the same requests.
//!
//! The proved library and the second program are compared by `cargo run --profile compare -p compare`. Everything here is written for
//! any two monitors, so that the tests can plant faults in one of them and see that they are found.

#![forbid(unsafe_code)]

pub mod arguments;
pub mod counts;
mod damage;
mod drop_frames;
mod fewer_indexes;
mod guided;
pub mod histories;
pub mod monitor;
mod page_tables;
mod pages;
pub mod pair;
mod plans;
pub mod program;
pub mod random;
mod reasons;
pub mod report;
pub mod requests;
pub mod run;
pub mod scripts;
pub mod sequences;
pub mod shrink;
pub mod state;
mod states;
pub mod table;
mod walks;
pub mod wrong_lines;
