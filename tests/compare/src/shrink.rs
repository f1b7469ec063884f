//! Makes a case that shows a fault as small as can be found: whatever can go while the fault stays, goes.

use common::layout::{ENTRY_WORDS, FRAME_WORDS};
use second::Request;

use crate::drop_frames::drop_frames;
use crate::fewer_indexes::lower_indexes;
use crate::pair::Finding;
use crate::requests::{numbers, with_numbers};
use crate::state::State;

/// Requests that are made in order, from this state on.
#[derive(Clone)]
pub struct Case {
    pub start: State,
    pub requests: Vec<Request>,
}

/// What a case shows, if it shows a fault.
pub type Check<'a> = dyn Fn(&Case) -> Option<Box<Finding>> + 'a;

/// Memories up to so many words are searched column by column too.
const SMALL: usize = 64 * FRAME_WORDS;
/// Where more words are not zero, their bits are left alone.
const FEW: usize = 64;

/// The fewest items, in order, on which the fault stays: drops ever smaller runs of them.
pub fn fewest<T: Clone>(items: &[T], mut fails: impl FnMut(&[T]) -> bool) -> Vec<T> {
    let mut items = items.to_vec();
    let mut size = items.len();
    while size > 0 {
        let mut dropped = false;
        let mut start = 0;
        while start < items.len() {
            let end = items.len().min(start + size);
            let rest = [&items[..start], &items[end..]].concat();
            if fails(&rest) {
                items = rest;
                dropped = true;
            } else {
                start = end;
            }
        }
        if size > 1 || !dropped {
            size /= 2;
        }
    }
    items
}

/// The smallest case that is found by dropping requests, words, bits and sizes in turn.
pub fn smallest(mut case: Case, check: &Check) -> Case {
    for _ in 0..6 {
        let mut smaller = drop_requests(&mut case, check);
        smaller |= drop_frames(&mut case, check);
        smaller |= shorten(&mut case, check);
        let large = case.start.memory.len() > SMALL;
        if !large {
            smaller |= clear_columns(&mut case, check);
            smaller |= lower_indexes(&mut case, check);
        }
        smaller |= clear_words(&mut case, table, check);
        smaller |= clear_words(&mut case, memory, check);
        smaller |= clear_pages(&mut case, check);
        if large && smaller {
            continue;
        }
        smaller |= simplify_requests(&mut case, check);
        smaller |= clear_bits(&mut case, table, check);
        smaller |= clear_bits(&mut case, memory, check);
        if !smaller {
            break;
        }
    }
    case
}

fn table(case: &mut Case) -> &mut Vec<u64> {
    &mut case.start.table
}

fn memory(case: &mut Case) -> &mut Vec<u64> {
    &mut case.start.memory
}

/// The words that the request at this place writes.
fn page(place: usize) -> impl Fn(&mut Case) -> &mut Vec<u64> {
    move |case| match &mut case.requests[place] {
        Request::PageWrite { words, .. } => words,
        _ => panic!("no page is written here"),
    }
}

fn drop_requests(case: &mut Case, check: &Check) -> bool {
    let before = case.requests.len();
    let start = &case.start;
    case.requests = fewest(&case.requests, |requests| {
        check(&Case {
            start: start.clone(),
            requests: requests.to_vec(),
        })
        .is_some()
    });
    case.requests.len() < before
}

/// Fewer frames, by halves and then one by one; a length that is no whole number of them keeps its odd words.
fn shorten(case: &mut Case, check: &Check) -> bool {
    let mut smaller = false;
    for (part, unit) in [
        (memory as fn(&mut Case) -> &mut Vec<u64>, FRAME_WORDS),
        (table, ENTRY_WORDS),
    ] {
        let halved = |length: usize| length / unit / 2 * unit + length % unit;
        let lessened = |length: usize| length.saturating_sub(unit);
        for next in [&halved as &dyn Fn(usize) -> usize, &lessened] {
            loop {
                let words = part(case);
                let length = next(words.len());
                if length == words.len() {
                    break;
                }
                let cut = words.split_off(length);
                if check(case).is_none() {
                    part(case).extend(cut);
                    break;
                }
                smaller = true;
            }
        }
    }
    smaller
}

/// Zeroes the same words of all frames at once: frames that have to be equal stay so.
fn clear_columns(case: &mut Case, check: &Check) -> bool {
    let mut smaller = false;
    let mut size = FRAME_WORDS;
    while size > 0 {
        for start in (0..FRAME_WORDS).step_by(size) {
            let saved = case.start.memory.clone();
            for frame in case.start.memory.chunks_exact_mut(FRAME_WORDS) {
                frame[start..start + size].fill(0);
            }
            if case.start.memory == saved {
                continue;
            }
            if check(case).is_some() {
                smaller = true;
            } else {
                case.start.memory = saved;
            }
        }
        size /= 2;
    }
    smaller
}

/// Zeroes ever smaller runs of words.
fn clear_words(case: &mut Case, part: impl Fn(&mut Case) -> &mut Vec<u64>, check: &Check) -> bool {
    let mut smaller = false;
    let length = part(case).len();
    let mut size = length.next_power_of_two();
    while size > 0 {
        for start in (0..length).step_by(size) {
            let range = start..length.min(start + size);
            let words = &mut part(case)[range.clone()];
            if words.iter().all(|&word| word == 0) {
                continue;
            }
            let saved = words.to_vec();
            words.fill(0);
            if check(case).is_some() {
                smaller = true;
            } else {
                part(case)[range].copy_from_slice(&saved);
            }
        }
        size /= 2;
    }
    smaller
}

/// Zeroes words, and then bits, of each page that is written.
fn clear_pages(case: &mut Case, check: &Check) -> bool {
    let mut smaller = false;
    for place in 0..case.requests.len() {
        if let Request::PageWrite { .. } = case.requests[place] {
            smaller |= clear_words(case, page(place), check);
            smaller |= clear_bits(case, page(place), check);
        }
    }
    smaller
}

/// Clears bits of the words that are left, from the highest on.
fn clear_bits(case: &mut Case, part: impl Fn(&mut Case) -> &mut Vec<u64>, check: &Check) -> bool {
    let words = part(case);
    let left: Vec<usize> = (0..words.len())
        .filter(|&position| words[position] != 0)
        .collect();
    if left.len() > FEW {
        return false;
    }
    let mut smaller = false;
    for position in left {
        for bit in (0..64).rev() {
            let word = part(case)[position];
            if word & 1 << bit == 0 {
                continue;
            }
            part(case)[position] = word & !(1 << bit);
            if check(case).is_some() {
                smaller = true;
            } else {
                part(case)[position] = word;
            }
        }
    }
    smaller
}

/// Puts smaller numbers in the place of each number of the requests: first wherever it stands, then in one place alone.
fn simplify_requests(case: &mut Case, check: &Check) -> bool {
    let mut smaller = false;
    let mut met: Vec<u64> = case.requests.iter().flat_map(numbers).collect();
    met.sort_unstable();
    met.dedup();
    for number in met {
        smaller |= replace(case, number, check, |_, _| true);
    }
    for place in 0..case.requests.len() {
        for (argument, number) in numbers(&case.requests[place]).into_iter().enumerate() {
            smaller |= replace(case, number, check, |at, of| (at, of) == (place, argument));
        }
    }
    smaller
}

/// Replaces a number, in those requests and arguments that are asked for, by the first simpler one that keeps the fault.
fn replace(
    case: &mut Case,
    number: u64,
    check: &Check,
    here: impl Fn(usize, usize) -> bool,
) -> bool {
    let bits = (0..64).rev().map(|bit| number & !(1 << bit));
    let simple = [0, 1, 2, 7, 0x1000, 0x2000, 0x3000, 0x4000];
    for simpler in simple
        .into_iter()
        .chain(bits)
        .filter(|&simpler| simpler < number)
    {
        let mut requests = case.requests.clone();
        for (at, request) in requests.iter_mut().enumerate() {
            let mut numbers = numbers(request);
            for (of, slot) in numbers.iter_mut().enumerate() {
                if *slot == number && here(at, of) {
                    *slot = simpler;
                }
            }
            *request = with_numbers(request, &numbers);
        }
        let saved = std::mem::replace(&mut case.requests, requests);
        if case.requests != saved && check(case).is_some() {
            return true;
        }
        case.requests = saved;
    }
    false
}

#[cfg(test)]
mod tests {
    use super::fewest;

    #[test]
    fn the_fewest_items_are_found() {
        let items: Vec<u32> = (0..100).collect();
        let fails = |rest: &[u32]| [7, 50, 99].iter().all(|item| rest.contains(item));
        assert_eq!(fewest(&items, fails), [7, 50, 99]);
        assert_eq!(fewest(&items, |rest: &[u32]| rest.len() > 1).len(), 2);
        assert_eq!(fewest(&items, |_: &[u32]| true), []);
    }
}
