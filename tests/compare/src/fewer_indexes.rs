//! Makes a case with page tables smaller: two indexes of tables become one, in all frames and in the addresses that go through them.

use common::layout::{frame_of, Entry, FRAME_WORDS};
use common::page_tables::{
    address_of, index, virtual_address, with_address, GUEST_END, LEVELS, PRESENT,
};

use crate::arguments::Kind;
use crate::requests::{kinds, numbers, with_numbers};
use crate::shrink::{Case, Check};

/// Makes indexes lower ones, as long as the fault stays.
pub fn lower_indexes(case: &mut Case, check: &Check) -> bool {
    let mut requests = case.requests.iter();
    if requests.all(|request| request.virtual_address().is_none()) {
        return false;
    }
    let mut smaller = false;
    for from in (1..FRAME_WORDS).rev() {
        if !is_used(case, from) {
            continue;
        }
        let below = (0..from).filter(|&index| index == 0 || is_used(case, index));
        let mut tried = below.filter_map(|to| lowered(case, from, to));
        if let Some(lowered) = tried.find(|tried| check(tried).is_some()) {
            *case = lowered;
            smaller = true;
        }
    }
    smaller
}

/// Whether some frame has a word of this index.
fn is_used(case: &Case, index: usize) -> bool {
    let mut frames = case.start.memory.chunks_exact(FRAME_WORDS);
    frames.any(|frame| frame[index] != 0)
}

/// The case with one index in the place of another, if no frame has different words there.
fn lowered(case: &Case, from: usize, to: usize) -> Option<Case> {
    let Case {
        mut start,
        mut requests,
    } = case.clone();
    let frames = start.m();
    // what could be the address of a frame stays
    let renamed = |at: u64| match frame_of(at) > frames {
        true => at & !(GUEST_END - 1) | lower(at, from, to) & (GUEST_END - 1),
        false => at,
    };
    for words in start.memory.chunks_exact_mut(FRAME_WORDS) {
        match (words[from], words[to]) {
            (0, _) => {}
            (word, other) if other == 0 || other == word => (words[from], words[to]) = (0, word),
            _ => return None,
        }
        for word in words.iter_mut().filter(|word| **word & PRESENT != 0) {
            *word = with_address(*word, renamed(address_of(*word)));
        }
    }
    for frame in 0..start.n() {
        let entry = start.entry(frame);
        let address = renamed(entry.address);
        start.put(frame, Entry { address, ..entry });
    }
    for request in &mut requests {
        let mut numbers = numbers(request);
        for (number, &kind) in numbers.iter_mut().zip(kinds(request)) {
            match kind {
                Kind::Guest => *number = renamed(*number),
                Kind::Virtual => *number = lower(*number, from, to),
                _ => {}
            }
        }
        *request = with_numbers(request, &numbers);
    }
    Some(Case { start, requests })
}

/// The address with one index in the place of another. Bits 63 to 48 become like bit 47.
fn lower(at: u64, from: usize, to: usize) -> u64 {
    let indexes = LEVELS.map(|level| index(at, level));
    virtual_address(indexes.map(|index| if index == from { to } else { index }))
}
