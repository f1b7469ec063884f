//! Requests for whole pages: of frames that are SHARED or have no entry, mostly; and the words of pages that are written.

use common::layout::{address, FRAME_BYTES, FRAME_WORDS};
use second::Request;

use crate::arguments::{any_numbers, distort, value, Kind};
use crate::random::Random;
use crate::state::State;

/// What caller, gpa and hpa are.
pub const KINDS: [Kind; 3] = [Kind::Party, Kind::Guest, Kind::Frame];

/// Runs of words that are no page.
const WRONG_LENGTHS: [usize; 4] = [0, 511, 513, 1024];

/// A request with numbers that fit their kinds by and large.
pub fn any(random: &mut Random, state: &State) -> Request {
    let numbers = any_numbers(random, state, &KINDS, true);
    request(random, state, &numbers)
}

/// A request that is mostly accepted; or, in so many cases of a hundred, one with numbers changed.
pub fn guided(random: &mut Random, state: &State, distorted: u64) -> Request {
    let caller = random.pick(&[0, 0, 1, 7, 511]);
    let gpa = random.below(3) * FRAME_BYTES;
    let hpa = address(frame(random, state));
    let mut numbers = [caller, gpa, hpa];
    if random.chance(distorted) {
        distort(random, state, &KINDS, &mut numbers);
    }
    request(random, state, &numbers)
}

/// A frame that is SHARED or has no entry; or any, a guest's page or a leaf among them.
fn frame(random: &mut Random, state: &State) -> usize {
    let mut shared = state.roles().shared;
    shared.extend(state.n()..state.m());
    let fitting = random.chance(80).then(|| random.try_pick(&shared));
    fitting
        .flatten()
        .unwrap_or_else(|| random.index(state.m().max(1)))
}

fn request(random: &mut Random, state: &State, numbers: &[u64]) -> Request {
    let &[caller, gpa, hpa] = numbers else {
        panic!("a request for a page has three numbers");
    };
    #[rustfmt::skip]
    let request = match random.below(10) {
        0..=3 => Request::PageRead { caller, gpa, hpa },
        4..=7 => Request::PageWrite { caller, gpa, hpa, words: run(random, state) },
        _ => Request::PageCheck { caller, gpa, hpa },
    };
    request
}

/// The words of a page, or a run of another length.
fn run(random: &mut Random, state: &State) -> Vec<u64> {
    let length = match random.below(10) {
        0 => random.pick(&WRONG_LENGTHS),
        _ => FRAME_WORDS,
    };
    let page = contents(random, state);
    page.iter().copied().cycle().take(length).collect()
}

/// What a page holds: what another frame does, a few words of any kind, or random words.
fn contents(random: &mut Random, state: &State) -> Vec<u64> {
    let frame = random.index(state.m().max(1));
    match (random.below(3), state.frame(frame)) {
        (0, Some(words)) => words.to_vec(),
        (0 | 1, _) => {
            let mut words = vec![0; FRAME_WORDS];
            for index in [0, 1, 7, 511, random.index(FRAME_WORDS)] {
                words[index] = value(random);
            }
            words
        }
        _ => (0..FRAME_WORDS).map(|_| random.word()).collect(),
    }
}
