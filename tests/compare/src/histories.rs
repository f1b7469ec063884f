//! Part (c): histories from an empty table and any memory. Each request and its reply go into the ledger of demand 3, which says whether a
//! guest's page went back to an older state, and whether places plus closings are the openings.

use second::{Answer, Ledger, Reply, Request};

use crate::counts::{about, Counts, Past};
use crate::monitor::{Monitor, Outcome};
use crate::pair::{Finding, Pair};
use crate::plans;
use crate::random::Random;
use crate::report::Report;
use crate::requests;
use crate::shrink::Case;
use crate::state::State;
use crate::table::Table;

/// The places of all guests are counted after so many requests, and at the end.
const PLACES_EVERY: usize = 8;

/// Of a hundred requests that come after no plan, so many begin one.
const PLANS: u64 = 6;

/// Makes this many requests of both monitors, in histories, and counts what they replied.
pub fn compare(
    monitors: [&dyn Monitor; 2],
    seed: u64,
    calls: u64,
    table: &mut Table,
    counts: &mut Counts,
) -> Result<(), Box<Report>> {
    let mut random = Random::new(seed ^ 0x4157);
    let mut made = 0;
    while made < calls {
        let length = (40 + random.below(700)).min(calls - made);
        run(monitors, length, &mut random, table, counts)?;
        made += length;
    }
    Ok(())
}

/// An empty table, and a memory that holds anything.
fn start(random: &mut Random) -> State {
    let n = 3 + random.index(9);
    let mut state = State::zero(n, n + random.index(4));
    if random.chance(80) {
        state
            .memory
            .iter_mut()
            .for_each(|word| *word = random.word());
    }
    state
}

fn run(
    monitors: [&dyn Monitor; 2],
    length: u64,
    random: &mut Random,
    table: &mut Table,
    counts: &mut Counts,
) -> Result<(), Box<Report>> {
    let mut history = History::new(monitors, &start(random));
    let start = history.pair.states[0].clone();
    let mut requests = Vec::new();
    let mut past = Past::default();
    let mut planned = Vec::new();
    for _ in 0..length {
        let state = &history.pair.states[1];
        let request = next(random, state, &mut planned);
        let about = about(&request, state);
        let step = history.step(&request);
        if let Ok(outcome) = &step {
            table.count(&request, outcome, &history.pair.states[1]);
            counts.note(&request, outcome, about, &mut past);
        }
        requests.push(request);
        if let Err(finding) = step {
            return Err(report(monitors, Case { start, requests }, *finding));
        }
    }
    let end = history.end();
    end.map_err(|finding| report(monitors, Case { start, requests }, *finding))
}

/// The next request: of the plan, last first, if there is one.
fn next(random: &mut Random, state: &State, planned: &mut Vec<Request>) -> Request {
    if planned.is_empty() && random.chance(PLANS) {
        *planned = plans::list(random, state);
        planned.reverse();
    }
    let planned = planned.pop();
    planned.unwrap_or_else(|| requests::guided(random, state, 15))
}

fn report(monitors: [&dyn Monitor; 2], case: Case, finding: Finding) -> Box<Report> {
    let check = |case: &Case| check(monitors, case);
    Report::new("histories", monitors, case, finding, &check)
}

/// The first fault of a history.
pub fn check(monitors: [&dyn Monitor; 2], case: &Case) -> Option<Box<Finding>> {
    let mut history = History::new(monitors, &case.start);
    for request in &case.requests {
        if let Err(finding) = history.step(request) {
            return Some(finding);
        }
    }
    history.end().err()
}

/// A history as it is made.
struct History<'a> {
    pair: Pair<'a>,
    ledger: Ledger,
    made: usize,
    last: Option<(Request, Outcome)>,
}

impl<'a> History<'a> {
    fn new(monitors: [&'a dyn Monitor; 2], start: &State) -> Self {
        Self {
            pair: Pair::new(monitors, start),
            ledger: Ledger::new(),
            made: 0,
            last: None,
        }
    }

    /// Makes a request. Between the two monitors' turns the second state is still what the first got, which the ledger asks for.
    fn step(&mut self, request: &Request) -> Result<Outcome, Box<Finding>> {
        let left = self.pair.make(0, request);
        let noted = match reply(request, &left) {
            Some(reply) => {
                let State { table, memory } = &self.pair.states[1];
                self.ledger.note_request(request, reply, table, memory)
            }
            None => Err("a history makes no monitor panic".to_owned()),
        };
        let right = self.pair.make(1, request);
        let outcome = self.pair.agree(request, [left, right])?;
        self.last = Some((request.clone(), outcome.clone()));
        self.made += 1;
        self.claim(noted)?;
        if let Some((number @ (5 | 12), _)) = outcome.refusal() {
            self.claim(Err(format!("a history never meets {number}")))?;
        }
        if self.made.is_multiple_of(PLACES_EVERY) {
            self.end()?;
        }
        Ok(outcome)
    }

    /// Counts the places of all guests.
    fn end(&self) -> Result<(), Box<Finding>> {
        let state = &self.pair.states[0];
        self.claim(self.ledger.places(&state.table, &state.memory))
    }

    fn claim(&self, claim: Result<(), String>) -> Result<(), Box<Finding>> {
        match (claim, &self.last) {
            (Err(claim), Some((request, outcome))) => Err(Box::new(Finding {
                request: request.clone(),
                outcomes: [outcome.clone(), outcome.clone()],
                words: Vec::new(),
                claim: Some(claim),
            })),
            _ => Ok(()),
        }
    }
}

/// What the ledger notes: a reading of a page that is refused hands back an empty part.
fn reply<'a>(request: &Request, outcome: &'a Outcome) -> Option<Reply<'a>> {
    match (request, outcome) {
        (_, Outcome::Panicked) => None,
        (_, Outcome::Handed(part)) => Some(Reply::Page(&part.words)),
        (Request::PageRead { .. }, Outcome::Answered(Answer::Refused { .. })) => {
            Some(Reply::Page(&[]))
        }
        (_, &Outcome::Answered(answer)) => Some(Reply::Answer(answer)),
        (_, &Outcome::Mapped(mapping)) => Some(Reply::Mapping(mapping)),
        (_, &Outcome::Reached(reached)) => Some(Reply::Reached(reached)),
    }
}
