//! Two monitors on two equal states: each takes a request, and replies, tables and memories are compared whole.

use second::Request;

use crate::monitor::{make, Monitor, Outcome};
use crate::state::State;

/// How many differing words a finding lists.
const LISTED: usize = 12;

pub struct Pair<'a> {
    pub monitors: [&'a dyn Monitor; 2],
    pub states: [State; 2],
}

/// What is wrong with a request: the two differ, or something is claimed that does not hold.
#[derive(Clone, Debug)]
pub struct Finding {
    pub request: Request,
    pub outcomes: [Outcome; 2],
    /// The first words in which the states after it differ.
    pub words: Vec<Differing>,
    pub claim: Option<String>,
}

#[derive(Clone, Debug)]
pub struct Differing {
    pub in_table: bool,
    pub position: usize,
    pub words: [u64; 2],
}

impl<'a> Pair<'a> {
    pub fn new(monitors: [&'a dyn Monitor; 2], start: &State) -> Self {
        Self {
            monitors,
            states: [start.clone(), start.clone()],
        }
    }

    /// Both take the request.
    pub fn step(&mut self, request: &Request) -> Result<Outcome, Box<Finding>> {
        let outcomes = [self.make(0, request), self.make(1, request)];
        self.agree(request, outcomes)
    }

    /// One of the two takes the request.
    pub fn make(&mut self, side: usize, request: &Request) -> Outcome {
        make(self.monitors[side], request, &mut self.states[side])
    }

    /// Whether the outcomes of a request and the states after it are the same.
    pub fn agree(
        &self,
        request: &Request,
        outcomes: [Outcome; 2],
    ) -> Result<Outcome, Box<Finding>> {
        let [left, right] = &self.states;
        if outcomes[0] == outcomes[1] && left == right {
            let [outcome, _] = outcomes;
            return Ok(outcome);
        }
        let tables = differing(true, &left.table, &right.table);
        let memories = differing(false, &left.memory, &right.memory);
        Err(Box::new(Finding {
            request: request.clone(),
            outcomes,
            words: tables.chain(memories).take(LISTED).collect(),
            claim: None,
        }))
    }
}

fn differing<'a>(
    in_table: bool,
    left: &'a [u64],
    right: &'a [u64],
) -> impl Iterator<Item = Differing> + 'a {
    let pairs = left.iter().zip(right).enumerate();
    pairs
        .filter(|(_, (one, two))| one != two)
        .map(move |(position, (&one, &two))| Differing {
            in_table,
            position,
            words: [one, two],
        })
}
