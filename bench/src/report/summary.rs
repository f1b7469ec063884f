//! The summary on standard output: a line a measurement.

use std::fmt::Display;

use super::machine::facts;
use super::numbers::{nanoseconds, ratio, thousands};
use crate::loops::Loop;
use crate::meter::Meter;
use crate::results::{Results, Row};

/// All that was measured, as plain text.
pub fn summary(meter: &Meter, results: &Results) -> String {
    let mut text = format!("{}\n", facts());
    text += &format!(
        "{} passes of {} rounds; times are ns a call, 'loop' is the part that is no call\n",
        meter.passes, meter.rounds
    );
    let calls = [
        ("accepted, warm", &results.accepted),
        ("refused, warm", &results.refused),
        ("accepted, spread over all frames", &results.spread),
    ];
    for (title, rows) in calls {
        text += &heading(title, "Rust");
        for row in rows {
            let n = thousands(row.size as u64);
            text += &line(format!("{}, N = {n}", row.what.name), row);
        }
    }
    text += &heading("frame loops", "Rust");
    text += &loops(&results.loops);
    text += &heading("one call for a page, against other calls", "other");
    text += &loops(&results.pages);
    text
}

fn loops(rows: &[Row<Loop>]) -> String {
    let named = |row: &Row<Loop>| {
        let name = format!("{}, {}", row.what.name, row.what.against).replace('`', "");
        line(format!("{name}, {} frames", row.size), row)
    };
    rows.iter().map(named).collect()
}

fn heading(title: &str, second: &str) -> String {
    let [ours, alone, ratio, middle] = ["ours", "loop", "ratio", "half of the pairs"];
    format!("\n{title:<60}{ours:>9}{second:>9}{alone:>6}{ratio:>7}   {middle}\n")
}

fn line<What>(name: impl Display, row: &Row<What>) -> String {
    let (low, high) = row.middle();
    format!(
        "{name:<60}{:>9}{:>9}{:>6}{:>7}   {} to {}\n",
        nanoseconds(row.ours()),
        nanoseconds(row.second()),
        nanoseconds(row.alone()),
        ratio(row.ratio()),
        ratio(low),
        ratio(high)
    )
}
