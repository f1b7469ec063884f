//! What was accepted in histories: openings, merges and the like, the reads that the ledger has a claim about, whole pages, and what was
//! made by virtual address.

use std::collections::BTreeMap;
use std::fmt;

use common::layout::{frame_of, gpa_of, is_present};
use second::{host_half, walk, Answer, Call, Mapping, Reached, Request, Virtual};

use crate::monitor::Outcome;
use crate::state::State;

/// What is counted. None may stay at zero.
#[derive(Clone, Copy)]
enum Event {
    Opening,
    OpenedAgain,
    Closing,
    Merge,
    MergedAgain,
    Unmerge,
    OwnerUnmerged,
    UnfixedToOwner,
    UnfixedToAnother,
    UnfixedToNobody,
    Read,
    MovedRead,
    PageWritten,
    PageReadBack,
    Walk,
    OpenedByAddress,
    ReadByAddress,
    WrittenByAddress,
    ByFixedTable,
}

/// By the order of `Event`.
const NAMES: [&str; 19] = [
    "openings",
    "openings of an address that was opened before",
    "closings",
    "merges",
    "merges of a page that was merged or unmerged before",
    "unmerges",
    "unmerges of the owner",
    "unfixes to the owner",
    "unfixes to another guest",
    "unfixes to nobody",
    "reads at an address that was opened once",
    "reads at an address that was opened once, of a page that was merged or unmerged",
    "whole pages written",
    "whole pages read with the words that were last written to them whole",
    "walks",
    "openings by virtual address",
    "reads by virtual address, at a guest address that was opened once",
    "writes by virtual address to a guest's page",
    "walks and calls by virtual address with the guest's top table in a fixed page",
];

#[derive(Default)]
pub struct Counts {
    counts: [u64; NAMES.len()],
}

/// A guest and an address.
type Holding = (u64, u64);

/// What a history has brought a guest and address so far, and what was last written to a frame whole.
#[derive(Default)]
pub struct Past {
    openings: BTreeMap<Holding, u64>,
    moves: BTreeMap<Holding, u64>,
    pages: BTreeMap<u64, Vec<u64>>,
}

/// Whose place a PMERGE, PUNMERGE or PUNFIX moves, and whether that is the owner of the fixed page.
#[derive(Clone, Copy)]
struct Moved {
    holding: Holding,
    owner: bool,
}

/// What a request is about, by the state that it finds.
#[derive(Clone, Copy)]
pub struct About {
    moved: Option<Moved>,
    called: Option<Call>,
    /// The guest's top table is in a fixed page.
    by_fixed_table: bool,
}

pub fn about(request: &Request, before: &State) -> About {
    About {
        moved: moved(request, before),
        called: called(request, before),
        by_fixed_table: by_fixed_table(request, before).unwrap_or(false),
    }
}

fn by_fixed_table(request: &Request, before: &State) -> Option<bool> {
    let at = request.virtual_address()?;
    let State { table, memory } = before;
    let (hpa, _) = host_half(table, memory, at.host_root, at.root).ok()?;
    let frame = frame_of(hpa);
    Some(frame < before.n() && before.entry(frame).fixed)
}

/// The call that a request by virtual address makes in this state, if its walk gets to an end.
#[rustfmt::skip]
fn called(request: &Request, before: &State) -> Option<Call> {
    let Virtual { caller, root, root_type, host_root, va } = request.virtual_address()?;
    let State { table, memory } = before;
    let found = walk(table, memory, caller, root, root_type, host_root, va).ok()?;
    let Mapping { gpa, hpa, gtype, ntype } = found;
    match *request {
        Request::PvalidateVa { kind, .. } => Some(Call::Pvalidate { caller, gpa, hpa, kind }),
        Request::ReadVa { index, .. } =>
            Some(Call::Read { caller, gpa, hpa, gtype, ntype, index }),
        Request::WriteVa { index, value, .. } =>
            Some(Call::Write { caller, gpa, hpa, gtype, ntype, index, value }),
        _ => None,
    }
}

/// Whose place the request moves, if it is accepted in this state.
fn moved(request: &Request, before: &State) -> Option<Moved> {
    let Request::Call(call) = request else {
        return None;
    };
    let page = |hpa: u64| {
        let frame = frame_of(hpa);
        (frame < before.n()).then(|| before.entry(frame))
    };
    let (fixed, holding) = match *call {
        Call::Pmerge { hpa1, hpa2, .. } => {
            let merged = page(hpa2)?;
            (page(hpa1)?, (merged.asid, merged.address))
        }
        Call::Punmerge { hpa1, asid, .. } => {
            let fixed = page(hpa1)?;
            let &word = before.leaf(fixed)?.get(usize::try_from(asid).ok()?)?;
            (fixed, (asid, gpa_of(word)))
        }
        Call::Punfix { hpa, .. } => {
            let fixed = page(hpa)?;
            let mut words = (0..).zip(before.leaf(fixed)?);
            let (asid, &word) = words.find(|(_, &word)| is_present(word))?;
            (fixed, (asid, gpa_of(word)))
        }
        _ => return None,
    };
    let owner = holding.0 == fixed.asid;
    Some(Moved { holding, owner })
}

impl Counts {
    /// Counts what a request brought.
    pub fn note(&mut self, request: &Request, outcome: &Outcome, about: About, past: &mut Past) {
        let fixed = about.by_fixed_table && outcome.refusal().is_none();
        self.add(Event::ByFixedTable, fixed);
        match (request, outcome) {
            (Request::Call(call), &Outcome::Answered(answer)) => {
                self.note_call(call, answer, about.moved, past);
            }
            (_, Outcome::Mapped(found)) => self.add(Event::Walk, found.is_ok()),
            (_, &Outcome::Reached(Reached { answer, .. })) => {
                if let Some(call) = about.called {
                    self.note_call(&call, answer, None, past);
                    self.note_by_address(&call, answer, past);
                }
            }
            (Request::PageWrite { hpa, words, .. }, Outcome::Answered(Answer::Done)) => {
                past.pages.insert(*hpa, words.clone());
                self.add(Event::PageWritten, true);
            }
            (Request::PageRead { hpa, .. }, Outcome::Handed(part)) => {
                let same = past.pages.get(hpa) == Some(&part.words);
                self.add(Event::PageReadBack, same);
            }
            _ => {}
        }
    }

    fn note_call(&mut self, call: &Call, answer: Answer, moved: Option<Moved>, past: &mut Past) {
        match (*call, answer) {
            (Call::Pvalidate { caller, gpa, .. }, Answer::Opened) => {
                let openings = past.openings.entry((caller, gpa)).or_default();
                *openings += 1;
                self.add(Event::Opening, true);
                self.add(Event::OpenedAgain, *openings > 1);
            }
            (_, Answer::Closed { .. }) => self.add(Event::Closing, true),
            (Call::Pmerge { .. } | Call::Punmerge { .. }, Answer::Done) => {
                self.note_move(call, moved, past);
            }
            (Call::Punfix { .. }, Answer::Unfixed { asid }) => {
                let owner = moved.is_some_and(|moved| moved.owner);
                self.add(Event::UnfixedToOwner, asid != 0 && owner);
                self.add(Event::UnfixedToAnother, asid != 0 && !owner);
                self.add(Event::UnfixedToNobody, asid == 0);
            }
            #[rustfmt::skip]
            (Call::Read { caller, gpa, gtype: 1 | 2, .. }, Answer::Word(_)) => {
                let once = past.openings.get(&(caller, gpa)) == Some(&1);
                self.add(Event::Read, once);
                self.add(Event::MovedRead, once && past.moves.contains_key(&(caller, gpa)));
            }
            _ => {}
        }
    }

    /// Counts what was made by virtual address.
    fn note_by_address(&mut self, call: &Call, answer: Answer, past: &Past) {
        match (*call, answer) {
            (_, Answer::Opened) => self.add(Event::OpenedByAddress, true),
            #[rustfmt::skip]
            (Call::Read { caller, gpa, gtype: 1 | 2, .. }, Answer::Word(_)) => {
                let once = past.openings.get(&(caller, gpa)) == Some(&1);
                self.add(Event::ReadByAddress, once);
            }
            (Call::Write { gtype: 1 | 2, .. }, Answer::Done) => {
                self.add(Event::WrittenByAddress, true);
            }
            _ => {}
        }
    }

    fn note_move(&mut self, call: &Call, moved: Option<Moved>, past: &mut Past) {
        let Some(Moved { holding, owner }) = moved else {
            return;
        };
        let moves = past.moves.entry(holding).or_default();
        *moves += 1;
        let merge = matches!(call, Call::Pmerge { .. });
        self.add(Event::Merge, merge);
        self.add(Event::MergedAgain, merge && *moves > 1);
        self.add(Event::Unmerge, !merge);
        self.add(Event::OwnerUnmerged, !merge && owner);
    }

    fn add(&mut self, event: Event, met: bool) {
        self.counts[event as usize] += u64::from(met);
    }

    /// What was never met, and has to be.
    pub fn faults(&self) -> Vec<String> {
        let named = NAMES.iter().zip(self.counts);
        let missing = named.filter(|(_, count)| *count == 0);
        missing
            .map(|(name, _)| format!("never met in a history: {name}"))
            .collect()
    }
}

impl fmt::Display for Counts {
    fn fmt(&self, f: &mut fmt::Formatter<'_>) -> fmt::Result {
        writeln!(f, "accepted in histories, and held against the ledger:")?;
        for (name, count) in NAMES.iter().zip(self.counts) {
            writeln!(f, "{count:>9} {name}")?;
        }
        Ok(())
    }
}
