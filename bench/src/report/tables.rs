//! The tables of docs/PERFORMANCE.md.

use super::machine::facts;
use super::numbers::{nanoseconds, ratio, thousands};
use crate::cases::{Case, ACCEPTED, REFUSED};
use crate::loops::LOOPS;
use crate::meter::Meter;
use crate::results::{named, Results, Row, GROWTH, L1, L2, SIZES};

/// How it was measured, in figures.
pub fn method(meter: &Meter, results: &Results) -> String {
    let rows = || results.accepted.iter().chain(&results.refused);
    let loops = sorted(rows().map(Row::alone));
    let widths = sorted(rows().map(Row::width));
    format!(
        "- {} passes over all of it, {} rounds each. The middle half of a row's {} ratios is {:.0} % of their median wide in the row in \
         the\n  middle, and {:.0} % in the widest row.\n\
         - The loop around the calls, with what it puts back, is {:.1} to {:.1} ns of each time, on both sides.\n\
         - {}; x86-64 at its baseline (SSE2).\n",
        meter.passes,
        meter.rounds,
        meter.passes * meter.rounds,
        100.0 * widths[widths.len() / 2],
        100.0 * widths[widths.len() - 1],
        loops[0],
        loops[loops.len() - 1],
        facts()
    )
}

fn sorted(values: impl Iterator<Item = f64>) -> Vec<f64> {
    let mut values: Vec<f64> = values.collect();
    values.sort_by(f64::total_cmp);
    values
}

/// Accepted calls at three sizes.
pub fn accepted(results: &Results) -> String {
    sizes("Accepted", &ACCEPTED, &results.accepted)
}

/// Refused calls at three sizes.
pub fn refused(results: &Results) -> String {
    sizes("Refused", &REFUSED, &results.refused)
}

fn sizes(title: &str, cases: &[Case], rows: &[Row<Case>]) -> String {
    let shown: Vec<String> = SIZES.iter().map(|&n| thousands(n as u64)).collect();
    let [small, middle, great] = [&shown[0], &shown[1], &shown[2]];
    let mut table = format!(
        "| {title} | ns, N = {small} | {middle} | {great} | Rust, ns, N = {great} | \
         ours / Rust, N = {small} | {middle} | {great} |\n|---|---|---|---|---|---|---|---|\n"
    );
    for case in cases {
        let rows = named(rows, case.name);
        let rows: Vec<_> = rows
            .iter()
            .filter(|row| SIZES.contains(&row.size))
            .collect();
        let mut cells = vec![case.name.to_string()];
        cells.extend(rows.iter().map(|row| nanoseconds(row.ours())));
        cells.extend(rows.last().map(|row| nanoseconds(row.second())));
        cells.extend(rows.iter().map(|row| ratio(row.ratio())));
        table += &line(&cells);
    }
    table
}

/// Accepted calls, spread over all frames.
pub fn spread(results: &Results) -> String {
    let mut table = "| Accepted | ns | Rust, ns | ours / Rust |\n|---|---|---|---|\n".to_string();
    for row in &results.spread {
        let name = row.what.name.to_string();
        let times = [nanoseconds(row.ours()), nanoseconds(row.second())];
        table += &line(&[&[name], &times[..], &[ratio(row.ratio())]].concat());
    }
    table
}

/// Our times as N grows.
pub fn growth(results: &Results) -> String {
    let mut heads = vec!["ns, N =".to_string()];
    heads.extend(GROWTH.iter().map(|&n| thousands(n as u64)));
    let mut table = line(&heads) + &"|---".repeat(heads.len()) + "|\n";
    for case in ACCEPTED {
        let mut cells = vec![case.name.to_string()];
        let rows = named(&results.accepted, case.name);
        cells.extend(rows.iter().map(|row| nanoseconds(row.ours())));
        table += &line(&cells);
    }
    table
}

/// One call for a page, against other calls.
pub fn pages(results: &Results) -> String {
    let heads = "| One SHARED page | ns | Against | ns | ratio |\n|---|---|---|---|---|\n";
    let mut table = heads.to_string();
    for row in &results.pages {
        table += &line(&[
            row.what.name.to_string(),
            nanoseconds(row.ours()),
            row.what.against.to_string(),
            nanoseconds(row.second()),
            ratio(row.ratio()),
        ]);
    }
    table
}

/// The frame loops.
pub fn loops(results: &Results) -> String {
    let mut table = "| One frame of 512 words | Against | L1, ns | Rust, ns | ours / Rust | L2, ns | Rust, ns | ours / Rust |\n\
                     |---|---|---|---|---|---|---|---|\n"
        .to_string();
    for one in LOOPS {
        let mut cells = vec![one.name.to_string(), one.against.to_string()];
        for size in [L1, L2] {
            let mut rows = results.loops.iter();
            let here = rows.find(|row| row.size == size && row.what.against == one.against);
            let row = here.expect("every loop is measured in both caches");
            let times = [nanoseconds(row.ours()), nanoseconds(row.second())];
            cells.extend(times);
            cells.push(ratio(row.ratio()));
        }
        table += &line(&cells);
    }
    table
}

fn line(cells: &[String]) -> String {
    format!("| {} |\n", cells.join(" | "))
}
