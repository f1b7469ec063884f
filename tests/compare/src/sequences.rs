//! Part (b): requests through the library, on states of every kind, those with page tables among them. Each state is used for a while, so
//! that damaged ones go on changing.

use crate::monitor::{make, Monitor};
use crate::page_tables::{self, Built};
use crate::pair::{Finding, Pair};
use crate::random::Random;
use crate::report::Report;
use crate::requests;
use crate::shrink::Case;
use crate::state::State;
use crate::states;
use crate::table::Table;
use crate::walks;

/// Of a hundred small states, so many have page tables; and there, of a hundred requests, so many are by virtual address.
const TABLES: u64 = 20;
const WALKS: u64 = 80;
/// After so many calls comes a large state, for so many calls.
const LARGE_EVERY: u64 = 40_000;
const LARGE_CALLS: u64 = 12;

/// Makes this many requests of both monitors, and counts what they replied.
pub fn compare(
    monitors: [&dyn Monitor; 2],
    seed: u64,
    calls: u64,
    table: &mut Table,
) -> Result<(), Box<Report>> {
    let mut large = 0;
    compare_on(monitors, seed, calls, table, |random, made| {
        if made >= LARGE_EVERY * (large + 1) {
            let size = states::LARGE[large as usize % states::LARGE.len()];
            large += 1;
            let start = match random.chance(50) {
                true => page_tables::large(random, size),
                false => without_tables(states::large(random, size)),
            };
            (start, LARGE_CALLS)
        } else if random.chance(TABLES) {
            (page_tables::small(random), 4 + random.below(30))
        } else {
            let state = states::small(random);
            (without_tables(state), 4 + random.below(60))
        }
    })
}

/// The same on small states with page tables alone.
pub fn compare_walks(
    monitors: [&dyn Monitor; 2],
    seed: u64,
    calls: u64,
    table: &mut Table,
) -> Result<(), Box<Report>> {
    compare_on(monitors, seed, calls, table, |random, _| {
        (page_tables::small(random), 4 + random.below(30))
    })
}

/// The same on these states, each for so many calls; they may ask how many were made before.
fn compare_on(
    monitors: [&dyn Monitor; 2],
    seed: u64,
    calls: u64,
    table: &mut Table,
    mut start: impl FnMut(&mut Random, u64) -> (Built, u64),
) -> Result<(), Box<Report>> {
    let mut random = Random::new(seed ^ 0x5e90);
    let mut made = 0;
    while made < calls {
        let (start, length) = start(&mut random, made);
        let length = length.min(calls - made);
        run(monitors, start, length, &mut random, table)?;
        made += length;
    }
    Ok(())
}

fn without_tables(state: State) -> Built {
    let at = Vec::new();
    Built { state, at }
}

/// Makes requests on one state.
fn run(
    monitors: [&dyn Monitor; 2],
    Built { state: start, at }: Built,
    length: u64,
    random: &mut Random,
    table: &mut Table,
) -> Result<(), Box<Report>> {
    let mut pair = Pair::new(monitors, &start);
    let mut requests = Vec::new();
    for _ in 0..length {
        let state = &pair.states[1];
        let request = match random.below(100) {
            0..WALKS if !at.is_empty() => walks::guided(random, state, &at, 40),
            0..=11 => requests::any(random, state),
            12..=20 => requests::of_two_frames(random, state),
            _ => requests::guided(random, state, 40),
        };
        let step = pair.step(&request);
        if let Ok(outcome) = &step {
            table.count(&request, outcome, &pair.states[1]);
        }
        requests.push(request);
        if let Err(finding) = step {
            return Err(report(monitors, Case { start, requests }, *finding));
        }
    }
    Ok(())
}

/// The first request of a case on which the monitors differ.
pub fn check(monitors: [&dyn Monitor; 2], case: &Case) -> Option<Box<Finding>> {
    let mut pair = Pair::new(monitors, &case.start);
    let mut requests = case.requests.iter();
    requests.find_map(|request| pair.step(request).err())
}

/// The last request of the case shows a difference. Mostly it alone does, on the state that it found.
fn report(monitors: [&dyn Monitor; 2], case: Case, finding: Finding) -> Box<Report> {
    let check = |case: &Case| check(monitors, case);
    let (last, before) = case.requests.split_last().expect("the one that differs");
    let mut start = case.start.clone();
    for request in before {
        make(monitors[1], request, &mut start);
    }
    let alone = Case {
        start,
        requests: vec![last.clone()],
    };
    let case = if check(&alone).is_some() { alone } else { case };
    Report::new("sequences", monitors, case, finding, &check)
}
