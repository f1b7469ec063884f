//! States to compare calls on: well formed, damaged, half damaged and wholly random ones, of all sizes.

use common::layout::{
    address, gpa_of, memory_words, present, table_words, Entry, ADDRESSES, ADDRESS_END,
    FRAME_BYTES, FRAME_WORDS, MERGEABLE, PRIVATE,
};

use crate::damage;
use crate::random::Random;
use crate::state::State;

/// Sizes at the upper bounds, N and M, on both sides. The last four are wrong.
pub const LARGE: [(usize, usize); 8] = [
    (4096, 8192),
    (4096, 4096),
    (1, 8192),
    (4095, 4097),
    (4097, 4097),
    (4096, 8193),
    (4097, 8192),
    (8, 8193),
];

/// A small state: mostly of right sizes, and well formed as often as not.
pub fn small(random: &mut Random) -> State {
    let n = 1 + random.index(12).min(random.index(12));
    let m = n + random.index(5);
    let mut state = State::zero(n, m);
    let frames: Vec<usize> = (0..n).collect();
    populate(random, &mut state, &frames);
    match random.below(100) {
        0..=47 => {}
        48..=57 => damage::rules(random, &mut state),
        58..=84 => {
            for _ in 0..random.pick(&[1, 1, 2, 4]) {
                damage::one(random, &mut state);
            }
        }
        85..=90 => damage::half(random, &mut state),
        91..=95 => damage::all(random, &mut state),
        _ => missize(random, &mut state),
    }
    state
}

/// A large state. Few of its words are not zero: in some frames at both ends and in the middle there are pages.
pub fn large(random: &mut Random, (n, m): (usize, usize)) -> State {
    let mut state = State::zero(n, m);
    let mut frames = vec![0, 1, 2, n / 2, n - 3.min(n), n - 2.min(n), n - 1];
    frames.extend((0..8).map(|_| random.index(n)));
    frames.sort_unstable();
    frames.dedup();
    frames.retain(|&frame| frame < n);
    populate(random, &mut state, &frames);
    if random.chance(30) {
        damage::one(random, &mut state);
    }
    state
}

/// Lengths that no monitor accepts.
pub fn missize(random: &mut Random, state: &mut State) {
    let (t, w) = (state.table.len(), state.memory.len());
    let (n, m) = (state.n(), state.m());
    match random.below(9) {
        0 => state.table.truncate(t - 1),
        1 => state.table.push(0),
        2 => state.table.clear(),
        3 => state.memory.truncate(w - 1),
        4 => state.memory.push(random.word()),
        5 => state.memory.clear(),
        6 => state.table.resize(table_words(m + 1), 0),
        7 => state.memory.truncate(memory_words(n - 1)),
        _ => state.table.resize(table_words(4097), 0),
    }
    if random.chance(5) {
        (state.table, state.memory) = (Vec::new(), Vec::new());
    }
}

/// Makes these frames pages, leaves and fixed pages that fit together; some stay SHARED.
fn populate(random: &mut Random, state: &mut State, frames: &[usize]) {
    let contents = Contents::new(random);
    let (mut mergeable, mut leaves) = (Vec::new(), Vec::new());
    for &frame in frames {
        contents.fill(random, state, frame);
        let (asid, gpa) = (guest(random), guest_address(random));
        let validated = random.chance(75);
        let page = |kind| Entry {
            validated,
            ..Entry::closed(asid, kind, gpa)
        };
        match random.below(100) {
            0..=24 => {}
            25..=36 => state.put(frame, page(PRIVATE)),
            37..=74 => {
                state.put(frame, page(MERGEABLE));
                mergeable.push(frame);
            }
            _ => {
                state.put(frame, Entry::LEAF);
                leaves.push(frame);
            }
        }
    }
    for frame in mergeable {
        if random.chance(60) {
            if let Some(leaf) = leaves.pop() {
                fix(random, state, frame, leaf);
            }
        }
    }
    for frame in state.n()..state.m().min(state.n() + 2) {
        contents.fill(random, state, frame);
    }
}

/// Makes a page fixed: its leaf has the owner's word, mostly, and words of some other guests.
fn fix(random: &mut Random, state: &mut State, frame: usize, leaf: usize) {
    let asid = state.entry(frame).asid;
    state.put(frame, Entry::fixed(asid, address(leaf)));
    let untidy = random.chance(25);
    let mut words = [0; FRAME_WORDS];
    if untidy {
        words
            .iter_mut()
            .for_each(|word| *word = gpa_of(random.word())); // absent, whatever the other bits
    }
    for _ in 0..random.pick(&[0, 0, 1, 2, 4]) {
        words[guest(random) as usize] = present(guest_address(random));
    }
    words[asid as usize] = match random.chance(85) {
        true => present(guest_address(random)),
        false => 0,
    };
    if let Some(frame) = state.frame_mut(leaf) {
        frame.copy_from_slice(&words);
    }
}

fn guest(random: &mut Random) -> u64 {
    match random.below(8) {
        0 => 1 + random.below(511),
        _ => random.pick(&[1, 2, 7, 511]),
    }
}

fn guest_address(random: &mut Random) -> u64 {
    match random.below(8) {
        0 => 0,
        1 => ADDRESS_END - FRAME_BYTES,
        2..=4 => random.below(8) * FRAME_BYTES,
        _ => random.below(ADDRESSES) * FRAME_BYTES,
    }
}

/// What frames hold: zeros, one run of words that several frames share, or that run with a word changed.
struct Contents {
    words: Vec<u64>,
    changed: usize,
}

impl Contents {
    fn new(random: &mut Random) -> Self {
        Self {
            words: (0..FRAME_WORDS).map(|_| random.word()).collect(),
            changed: random.pick(&[0, 1, 255, 510, 511]),
        }
    }

    fn fill(&self, random: &mut Random, state: &mut State, frame: usize) {
        let chosen = random.below(10);
        let Some(words) = state.frame_mut(frame) else {
            return;
        };
        if chosen < 6 {
            words.copy_from_slice(&self.words);
        }
        if chosen == 5 || chosen == 6 {
            words[self.changed] ^= 1;
        }
    }
}
