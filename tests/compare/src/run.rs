//! A whole run: scripts, sequences and histories, then the table.

use std::fmt::Write;

use crate::counts::Counts;
use crate::histories;
use crate::monitor::Monitor;
use crate::scripts::{self, Program, Wrong};
use crate::sequences;
use crate::table::Table;

/// The seed and the number of calls of a run that names none.
pub const SEED: u64 = 20;
pub const CALLS: u64 = 1_700_000;

/// What a run prints, and whether all of it is as it has to be.
pub struct Run {
    pub printed: String,
    pub passed: bool,
}

/// Compares: a fifth of the calls in scripts, half of them on states of every kind, the rest in histories.
pub fn run(programs: [&Program; 2], monitors: [&dyn Monitor; 2], seed: u64, calls: u64) -> Run {
    let (mut table, mut wrong, mut counts) = (Table::new(), Wrong::default(), Counts::default());
    let mut found = Vec::new();
    let run = scripts::compare(programs, seed, calls / 5, &mut table, &mut wrong);
    found.extend(run.err().map(|report| report.to_string()));
    let run = sequences::compare(monitors, seed, calls / 2, &mut table);
    found.extend(run.err().map(|report| report.to_string()));
    let rest = calls.saturating_sub(table.calls());
    let run = histories::compare(monitors, seed, rest, &mut table, &mut counts);
    found.extend(run.err().map(|report| report.to_string()));

    let mut printed = String::new();
    for report in &found {
        writeln!(printed, "seed {seed}, {calls} calls: {report}").expect("a string takes all");
    }
    // a part that found a difference ended there, so that what it did not meet says nothing
    let faults = match found.is_empty() {
        true => [table.faults(), wrong.faults(), counts.faults()].concat(),
        false => Vec::new(),
    };
    writeln!(printed, "{wrong}{counts}\n{table}").expect("a string takes all");
    for fault in &faults {
        writeln!(printed, "{fault}").expect("a string takes all");
    }
    let (made, differences) = (table.calls(), found.len());
    let (cells, reasons) = (table.reached(), table.reached_reasons());
    writeln!(
        printed,
        "{made} calls, seed {seed}, {differences} differences, {cells} cells and {reasons} of reasons reached"
    )
    .expect("a string takes all");
    Run {
        printed,
        passed: found.is_empty() && faults.is_empty(),
    }
}
