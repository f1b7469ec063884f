//! What the comparison (`tests/compare`) and the benchmark (`bench`) share. The second program uses none of it.

#![forbid(unsafe_code)]

pub mod answer;
pub mod layout;
pub mod page_tables;
