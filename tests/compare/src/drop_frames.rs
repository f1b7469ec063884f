//! Makes a case smaller by taking out frames: those above move down, and whatever names them names them by their new addresses.

use std::ops::Range;

use common::layout::{self, address, entry_at, frame_at, frame_of, Entry, SHARED};
use common::page_tables::{address_of, with_address, PRESENT};
use second::Request;

use crate::arguments::Kind;
use crate::requests::{kinds, numbers, with_numbers};
use crate::shrink::{fewest, Case, Check};
use crate::state::State;

/// Up to so many frames are tried one by one.
const FEW: usize = 64;

/// Takes out frames, with their entries if they have any.
pub fn drop_frames(case: &mut Case, check: &Check) -> bool {
    let frames: Vec<usize> = (0..case.start.m().max(case.start.n())).collect();
    // where sizes have to be large, every try is slow: then a few, of many frames each, have to do
    let mut tries = if frames.len() > FEW { 8 } else { u32::MAX };
    let runs: Vec<&[usize]> = frames.chunks(frames.len().div_ceil(FEW).max(1)).collect();
    let kept = fewest(&runs, |kept| {
        tries = tries.saturating_sub(1);
        tries > 0 && check(&restricted(case, &kept.concat())).is_some()
    });
    let smaller = kept.len() < runs.len();
    if smaller {
        *case = restricted(case, &kept.concat());
    }
    smaller
}

/// The case with these frames alone.
fn restricted(case: &Case, kept: &[usize]) -> Case {
    let State { table, memory } = &case.start;
    let m = case.start.m().max(case.start.n());
    let renamed = |hpa: u64| match frame_of(hpa) {
        frame if (m..=m + 1).contains(&frame) => hpa - address(m - kept.len()),
        frame => kept
            .binary_search(&frame)
            .map_or(hpa, |place| hpa - address(frame - place)),
    };
    let mut start = State {
        table: kept_words(table, entry_at, kept, layout::n(table)),
        memory: kept_words(memory, frame_at, kept, layout::m(memory)),
    };
    for frame in 0..start.n() {
        let entry = start.entry(frame);
        if entry.fixed {
            let address = renamed(entry.address);
            start.put(frame, Entry { address, ..entry });
        }
    }
    let mut addresses = case.requests.iter().map(Request::virtual_address);
    if addresses.any(|va| va.is_some()) {
        rename_entries(&mut start, renamed);
    }
    let requests = case
        .requests
        .iter()
        .map(|request| with_frames(request, renamed))
        .collect();
    Case { start, requests }
}

/// The host's page tables are in frames that are SHARED or have no entry: renames what could be an entry there.
fn rename_entries(state: &mut State, renamed: impl Fn(u64) -> u64) {
    for frame in 0..state.m() {
        if frame < state.n() && state.entry(frame).kind != SHARED {
            continue;
        }
        let words = state.frame_mut(frame).into_iter().flatten();
        for word in words.filter(|word| **word & PRESENT != 0) {
            *word = with_address(*word, renamed(address_of(*word)));
        }
    }
}

/// The words of these frames, as many as there are, and the odd words after the last.
fn kept_words(
    words: &[u64],
    at: fn(usize) -> Range<usize>,
    kept: &[usize],
    frames: usize,
) -> Vec<u64> {
    let end = words.len();
    let part = |place: Range<usize>| &words[place.start.min(end)..place.end.min(end)];
    let whole = kept.iter().filter(|&&frame| frame < frames);
    let odd = part(at(frames).start..end);
    let parts = whole.map(|&frame| part(at(frame))).chain([odd]);
    parts.collect::<Vec<_>>().concat()
}

/// The request with the addresses of frames changed.
fn with_frames(request: &Request, renamed: impl Fn(u64) -> u64) -> Request {
    let mut numbers = numbers(request);
    for (number, &kind) in numbers.iter_mut().zip(kinds(request)) {
        if kind == Kind::Frame {
            *number = renamed(*number);
        }
    }
    with_numbers(request, &numbers)
}
