//! No test that can't fail: faults are planted in one of the two monitors, in both, or in a script program, and each has to be found.

#![forbid(unsafe_code)]

mod changes;
mod found;
mod ledger;
mod monitors;
mod pages;
mod reasons;
mod refusals;
mod scripts;
mod tables;
mod walks;
