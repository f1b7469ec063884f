//! PFIX, accepted, and PUNFIX, accepted and refused with 17.

use common::layout::{address, present, word_at, Entry, ENTRY_WORDS, FRAME_WORDS};
use skorbilek::HOST;

use super::tables::{mixed, uniform, PAGES};
use super::{repeated, steady};
use crate::calls::{Pfix, Punfix};
use crate::scene::{Scene, Turn};
use crate::world::{gpa, guest, mergeable, World};

/// Fixed pages for PUNFIX, each with its leaf in the next frame.
const FIXED: usize = 4;

/// PFIX in a table where every page is open and MERGEABLE.
pub fn fixed_uniform(n: usize) -> Scene<Pfix, ENTRY_WORDS, 0> {
    fixed(uniform(n))
}

/// PFIX in a table of random types.
pub fn fixed_mixed(n: usize) -> Scene<Pfix, ENTRY_WORDS, 0> {
    fixed(mixed(n))
}

/// PFIX of the first pages, all with the last frame as the leaf. The page's entry is put back, so the leaf is free again.
fn fixed(world: World) -> Scene<Pfix, ENTRY_WORDS, 0> {
    let leaf = world.n() - 1;
    let turn = |frame| Turn {
        call: Pfix {
            caller: HOST,
            hpa: address(frame),
            leaf: address(leaf),
        },
        table: mergeable(frame).open().placed(frame),
        memory: [],
    };
    let turns = repeated((0..PAGES).map(turn).collect());
    Scene { world, turns }
}

/// PUNFIX of a page that only its owner is in.
pub fn owner_left(n: usize) -> Scene<Punfix, 3, 1> {
    unfixed(n, |page, owner| (owner, present(gpa(page))))
}

/// PUNFIX of a page that only another guest is in.
pub fn another_left(n: usize) -> Scene<Punfix, 3, 1> {
    unfixed(n, |page, owner| (owner + 1, present(gpa(page))))
}

/// PUNFIX of a page that nobody is in.
pub fn nobody_left(n: usize) -> Scene<Punfix, 3, 1> {
    unfixed(n, |_, owner| (owner, 0))
}

/// The owners of the pages for PUNFIX: their words are spread over the leaf, and over the places in a vector.
fn owner(slot: usize) -> u64 {
    60 + 131 * slot as u64
}

/// The frames of a fixed page and of its leaf.
fn frames(slot: usize) -> (usize, usize) {
    (2 * slot, 2 * slot + 1)
}

fn unfix(page: usize) -> Punfix {
    Punfix {
        caller: HOST,
        hpa: address(page),
    }
}

/// PUNFIX of a page in whose leaf this guest's word is this, and no other is present. The page's entry, word 0 of the leaf's and the
/// guest's word are put back; the page's zeros were zeros before.
fn unfixed(n: usize, left: fn(usize, u64) -> (u64, u64)) -> Scene<Punfix, 3, 1> {
    let mut world = World::new(n);
    let turns = (0..FIXED).map(|slot| {
        let (page, leaf) = frames(slot);
        let (asid, word) = left(page, owner(slot));
        let fixed = Entry::fixed(owner(slot), address(leaf));
        world.put(page, fixed);
        world.put(leaf, Entry::LEAF);
        world.set(leaf, asid as usize, word);
        let [head, leaf_address] = fixed.placed(page);
        let [leaf_head, _] = Entry::LEAF.placed(leaf);
        Turn {
            call: unfix(page),
            table: [head, leaf_address, leaf_head],
            memory: [(word_at(leaf, asid as usize), word)],
        }
    });
    let turns = repeated(turns.collect());
    Scene { world, turns }
}

/// PUNFIX of a page whose owner's word and the next are present.
pub fn next_present(n: usize) -> Scene<Punfix, 0, 0> {
    still_shared(n, |owner| owner + 1)
}

/// PUNFIX of a page whose owner's word and the last are present.
pub fn last_present(n: usize) -> Scene<Punfix, 0, 0> {
    still_shared(n, |_| FRAME_WORDS - 1)
}

fn still_shared(n: usize, second: fn(usize) -> usize) -> Scene<Punfix, 0, 0> {
    let mut world = World::new(n);
    for (page, leaf) in (0..FIXED).map(frames) {
        let owner = guest(page);
        world.fix(page, leaf, owner);
        world.set(leaf, second(owner as usize), present(gpa(page)));
    }
    Scene {
        world,
        turns: steady(FIXED, |slot| unfix(frames(slot).0)),
    }
}
