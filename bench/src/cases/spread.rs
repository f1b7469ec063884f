//! Calls spread over all frames of the table in random order, so that most of what they touch is in no near cache.

use common::layout::{ENTRY_WORDS, FRAME_WORDS};

use super::{access, assignment, merging};
use crate::calls::{Pmerge, Read, Rmpupdate, Write};
use crate::random::Random;
use crate::scene::{Scene, Turn};
use crate::world::guest;

/// Reads and writes of a pass: with a random word each, they touch 4 MB of 16.
const ACCESSES: usize = 65_536;

/// READ of a random word of a random page.
pub fn read_own(n: usize) -> Scene<Read, 0, 0> {
    Scene {
        world: access::open_pages(n, n),
        turns: accesses(n, access::reading),
    }
}

/// WRITE to a random word of a random page.
pub fn write_own(n: usize) -> Scene<Write, 0, 0> {
    Scene {
        world: access::open_pages(n, n),
        turns: accesses(n, access::writing),
    }
}

fn accesses<C>(n: usize, call: fn(usize, usize) -> C) -> Vec<Turn<C, 0, 0>> {
    let mut random = Random::new();
    let mut turn = |_| Turn::steady(call(random.below(n), random.below(FRAME_WORDS)));
    (0..ACCESSES).map(&mut turn).collect()
}

/// RMPUPDATE of every frame, which leaves its entry as it is.
pub fn stays(n: usize) -> Scene<Rmpupdate, 0, 0> {
    let given = |frame| assignment::given(frame, guest(frame));
    Scene {
        world: assignment::pages(n, n),
        turns: shuffled(n)
            .into_iter()
            .map(given)
            .map(Turn::steady)
            .collect(),
    }
}

/// RMPUPDATE of every frame to another guest, and of every frame back.
pub fn changes(n: usize) -> Scene<Rmpupdate, 0, 0> {
    let order = shuffled(n);
    let to_other = order
        .iter()
        .map(|&frame| assignment::given(frame, guest(frame) + 1));
    let back = order
        .iter()
        .map(|&frame| assignment::given(frame, guest(frame)));
    Scene {
        world: assignment::pages(n, n),
        turns: to_other.chain(back).map(Turn::steady).collect(),
    }
}

/// PMERGE over all frames, three a call.
pub fn merged(n: usize) -> Scene<Pmerge, ENTRY_WORDS, 1> {
    Scene {
        world: merging::equal_pages(n, n / 3),
        turns: shuffled(n / 3).into_iter().map(merging::merge).collect(),
    }
}

fn shuffled(length: usize) -> Vec<usize> {
    let mut order: Vec<usize> = (0..length).collect();
    Random::new().shuffle(&mut order);
    order
}
