//! How often each call was refused with 5 for each reason; and how often it met two bad entries whose reasons differ, so that the reason
//! tells which of them decided.

use std::collections::BTreeSet;
use std::fmt;

use common::layout::{address, frame_of};
use second::{page_check, Answer, Request};

use crate::arguments::Kind;
use crate::requests::{kinds, letter, numbers, NAMES};
use crate::state::State;

/// How many reasons there are, numbered from 1.
const REASONS: usize = 4;

/// The calls that can meet two bad entries: three name two frames, and CENSUS meets them all.
const TWO: [(char, &str); 4] = [
    ('F', "PFIX"),
    ('M', "PMERGE"),
    ('D', "PUNMERGE"),
    ('C', "CENSUS"),
];

#[derive(Default)]
pub struct Reasons {
    /// By call and reason.
    given: [[u64; REASONS]; NAMES.len()],
    /// By call, and by the reasons of the bad entries that come first and last: among the arguments, or among the frames of a census.
    orders: [[[u64; REASONS]; REASONS]; TWO.len()],
    /// What no refusal can have: 5 with no reason or one above 4, and any other with a reason.
    wrong: BTreeSet<String>,
}

impl Reasons {
    /// Counts a refusal, by number and reason, which left this state as it was.
    pub fn count(&mut self, request: &Request, refusal: (u8, u8), state: &State) {
        let row = NAMES.iter().position(|&(call, _)| call == letter(request));
        let row = row.expect("every request has a row");
        match refusal {
            (5, reason @ 1..=4) => {
                self.given[row][usize::from(reason) - 1] += 1;
                self.count_order(request, state);
            }
            (5, reason) | (_, reason @ 1..) => {
                let (number, name) = (refusal.0, NAMES[row].1);
                let wrong = format!("{name} refused with {number}, reason {reason}");
                self.wrong.insert(wrong);
            }
            _ => {}
        }
    }

    fn count_order(&mut self, request: &Request, state: &State) {
        let row = TWO.iter().position(|&(call, _)| call == letter(request));
        let bad = met(request, state).into_iter();
        let bad: Vec<usize> = bad.filter_map(|frame| reason(frame, state)).collect();
        if let (Some(row), &[first, .., last]) = (row, &bad[..]) {
            self.orders[row][first - 1][last - 1] += 1;
        }
    }

    /// How many cells have a count.
    pub fn reached(&self) -> usize {
        let given = self.given.iter().flatten().copied();
        let orders = self.orders().map(|(_, _, count)| count);
        given.chain(orders).filter(|&count| count > 0).count()
    }

    /// The cells that are empty and must not be, and what must not be met and was.
    pub fn faults(&self) -> Vec<String> {
        let mut faults = Vec::new();
        for ((_, name), counts) in NAMES.iter().zip(&self.given) {
            let empty = (1..).zip(counts).filter(|(_, &count)| count == 0);
            let fault = |(reason, _)| format!("never met: {name} refused with 5, reason {reason}");
            faults.extend(empty.map(fault));
        }
        for (name, [first, last], count) in self.orders() {
            if count == 0 {
                faults.push(format!(
                    "never met: {name} refused with 5, where the first bad entry has reason {first} and the last {last}"
                ));
            }
        }
        let wrong = self.wrong.iter();
        faults.extend(wrong.map(|wrong| format!("met, and can't be: {wrong}")));
        faults
    }

    /// How often two reasons that differ were met by a call, in this order.
    fn orders(&self) -> impl Iterator<Item = (&'static str, [usize; 2], u64)> + '_ {
        let rows = TWO.iter().zip(&self.orders);
        rows.flat_map(|((_, name), counts)| {
            pairs().map(|[first, last]| (*name, [first, last], counts[first - 1][last - 1]))
        })
    }
}

/// Two reasons that differ.
fn pairs() -> impl Iterator<Item = [usize; 2]> {
    let all = (1..=REASONS).flat_map(|first| (1..=REASONS).map(move |last| [first, last]));
    all.filter(|[first, last]| first != last)
}

/// The frames whose entries a call that is refused with 5 has asked for, in this order; a census all of them.
fn met(request: &Request, state: &State) -> Vec<usize> {
    if letter(request) == 'C' {
        return (0..state.n()).collect();
    }
    let numbers = numbers(request).into_iter().zip(kinds(request));
    let frames = numbers.filter(|(_, &kind)| kind == Kind::Frame);
    frames.map(|(hpa, _)| frame_of(hpa)).collect()
}

/// What is bad in the entry of a frame, if anything is: the check of a page tells.
fn reason(frame: usize, state: &State) -> Option<usize> {
    match page_check(&state.table, &state.memory, 0, 0, address(frame)) {
        Answer::Refused { number: 5, reason } => Some(usize::from(reason)),
        _ => None,
    }
}

impl fmt::Display for Reasons {
    fn fmt(&self, f: &mut fmt::Formatter<'_>) -> fmt::Result {
        writeln!(f, "\nrefused with 5, by reason:")?;
        line(f, "", 1..=REASONS)?;
        for ((_, name), counts) in NAMES.iter().zip(&self.given) {
            line(f, name, counts)?;
        }
        let title = "the same on two bad entries, by the reasons of the first and the last:";
        writeln!(f, "\n{title}")?;
        line(
            f,
            "",
            pairs().map(|[first, last]| format!("{first} {last}")),
        )?;
        for (_, name) in TWO {
            let orders = self.orders().filter(|&(call, _, _)| call == name);
            line(f, name, orders.map(|(_, _, count)| count))?;
        }
        Ok(())
    }
}

/// A line of a table.
fn line(
    f: &mut fmt::Formatter<'_>,
    name: &str,
    cells: impl IntoIterator<Item = impl fmt::Display>,
) -> fmt::Result {
    write!(f, "{name:12} ")?;
    for cell in cells {
        write!(f, " {cell:>7}")?;
    }
    writeln!(f)
}
