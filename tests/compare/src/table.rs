//! How often each call was accepted and refused with each number, and with 5 for each reason, and whether that is as it can be.

use std::fmt;

use second::Request;

use crate::arguments::LETTERS;
use crate::monitor::Outcome;
use crate::reasons::Reasons;
use crate::requests::{self, NAMES};
use crate::state::State;

/// Which calls can be accepted, and be refused with 1 to 19: docs/CALLS.md, 'Refusals', the column 'Can be given by'. The letters r, w and
/// c are whole pages, whose access is SHARED: any party may make it, and nothing is asked of a page of a guest. The letters k, v, l and s
/// are the calls by virtual address: each can be given what a READ can on the way, and v and s what PVALIDATE and WRITE can at its end.
pub const REACHABLE: [&str; 20] = [
    "UVFMDXRWCrwckvls", // accepted
    "UVFMDXRWCrwckvls", // 1, GEOMETRY
    "UVFMDXRWCrwckvls", // 2, ARGUMENT
    "UVFMDXRWkvls",     // 3, CALLER
    "UVFMDXRWrwckvls",  // 4, OUTSIDE
    "UVFMDXRWCrwckvls", // 5, BAD ENTRY
    "UVFMDXRWrwckvls",  // 6, TYPE
    "VRWkvls",          // 7, OWNER
    "VRWkvls",          // 8, ADDRESS
    "FMRWkvls",         // 9, NOT VALIDATED
    "UVFMWvs",          // 10, FIXED
    "MDX",              // 11, NOT FIXED
    "MDXRCkvls",        // 12, BROKEN LEAF
    "DRkvls",           // 13, NO PLACE
    "M",                // 14, PLACE TAKEN
    "F",                // 15, LEAF IN USE
    "M",                // 16, CONTENTS
    "X",                // 17, STILL SHARED
    "kvls",             // 18, ABSENT ENTRY
    "kvls",             // 19, LARGE PAGE
];

/// The greatest number of a refusal, and the column for numbers that no refusal has.
const LAST: usize = REACHABLE.len() - 1;
const OTHER: usize = REACHABLE.len();

/// Counts by call and column: accepted, then the refusals by number. The last column is for numbers that no refusal has.
#[derive(Default)]
pub struct Table {
    counts: [[u64; OTHER + 1]; NAMES.len()],
    reasons: Reasons,
}

impl Table {
    pub fn new() -> Self {
        Self::default()
    }

    /// Counts what both monitors replied. A refusal left this state as it was.
    pub fn count(&mut self, request: &Request, outcome: &Outcome, state: &State) {
        let column = match (outcome, outcome.refusal()) {
            (Outcome::Panicked, _) => OTHER,
            (_, Some((number, _))) => usize::from(number).clamp(1, OTHER),
            (_, None) => 0,
        };
        self.add(requests::letter(request), column);
        if let Some(refusal) = outcome.refusal() {
            self.reasons.count(request, refusal, state);
        }
    }

    /// Counts a line that both script programs printed; whether it is an answer.
    pub fn count_line(&mut self, line: &[u8]) -> bool {
        let Some((&letter, rest)) = line.split_first() else {
            return false;
        };
        let column = match rest.strip_prefix(b" no ") {
            None if rest.starts_with(b" ok") => 0,
            None => return false,
            Some(digits) => match std::str::from_utf8(digits).map(str::parse::<usize>) {
                Ok(Ok(number)) => number.clamp(1, OTHER),
                _ => OTHER,
            },
        };
        let letter = char::from(letter);
        LETTERS.contains(&letter) && self.add(letter, column)
    }

    fn add(&mut self, letter: char, column: usize) -> bool {
        let row = NAMES.iter().position(|&(call, _)| call == letter);
        row.map(|row| self.counts[row][column] += 1).is_some()
    }

    /// How many calls were counted.
    pub fn calls(&self) -> u64 {
        self.counts.iter().flatten().sum()
    }

    /// How many cells have a count.
    pub fn reached(&self) -> usize {
        self.counts
            .iter()
            .flatten()
            .filter(|&&count| count > 0)
            .count()
    }

    /// The same, of the tables of reasons.
    pub fn reached_reasons(&self) -> usize {
        self.reasons.reached()
    }

    /// The cells that are empty and must not be, and those that must be empty and are not.
    pub fn faults(&self) -> Vec<String> {
        let mut faults = self.reasons.faults();
        for ((letter, name), counts) in NAMES.iter().zip(&self.counts) {
            for (column, &count) in counts.iter().enumerate() {
                let cell = match column {
                    0 => format!("{name} accepted"),
                    OTHER => format!("{name} with a number that no refusal has"),
                    number => format!("{name} refused with {number}"),
                };
                match (reachable(*letter, column), count) {
                    (true, 0) => faults.push(format!("never met: {cell}")),
                    (false, 1..) => faults.push(format!("met, and can't be: {cell}")),
                    _ => {}
                }
            }
        }
        faults
    }
}

fn reachable(letter: char, column: usize) -> bool {
    REACHABLE
        .get(column)
        .is_some_and(|letters| letters.contains(letter))
}

impl fmt::Display for Table {
    fn fmt(&self, f: &mut fmt::Formatter<'_>) -> fmt::Result {
        write!(f, "{:12} {:>8}", "", "accepted")?;
        for number in 1..=LAST {
            write!(f, " {number:>7}")?;
        }
        writeln!(f)?;
        for ((letter, name), counts) in NAMES.iter().zip(&self.counts) {
            write!(f, "{name:12}")?;
            for (column, count) in counts.iter().enumerate().take(OTHER) {
                let width = if column == 0 { 8 } else { 7 };
                match (reachable(*letter, column), count) {
                    (false, 0) => write!(f, " {:>width$}", ".")?,
                    _ => write!(f, " {count:>width$}")?,
                }
            }
            writeln!(f)?;
        }
        write!(f, "{}", self.reasons)
    }
}
