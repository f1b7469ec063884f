//! Full tables, for the calls that look through all of it.

use common::layout::{present, Entry, FRAME_WORDS};

use crate::random::Random;
use crate::world::{gpa, guest, mergeable, private, World};

/// The first frames, which are open MERGEABLE pages in both tables. The last frame is a LEAF that no page has.
pub const PAGES: usize = 4;

/// A table in which every page is MERGEABLE, a guest's and open.
pub fn uniform(n: usize) -> World {
    let mut world = World::new(n);
    for frame in 0..n - 1 {
        world.put(frame, mergeable(frame).open());
    }
    world.put(n - 1, Entry::LEAF);
    world
}

/// A table of random types, open or not. Every other open MERGEABLE page is fixed, where there is a leaf for it.
pub fn mixed(n: usize) -> World {
    let mut world = World::new(n);
    let mut random = Random::new();
    let mut leaves = Vec::new();
    let mut pages = Vec::new();
    for frame in PAGES..n - 1 {
        match random.below(4) {
            0 => (),
            1 => world.put(frame, opened_or_not(&mut random, private(frame))),
            2 => {
                world.put(frame, opened_or_not(&mut random, mergeable(frame)));
                pages.push(frame);
            }
            _ => {
                world.put(frame, Entry::LEAF);
                leaves.push(frame);
            }
        }
    }
    random.shuffle(&mut leaves);
    pages.retain(|&page| world.entry(page) == mergeable(page).open() && random.coin());
    for (&page, &leaf) in pages.iter().zip(&leaves) {
        world.fix(page, leaf, guest(page));
        join(&mut world, &mut random, page, leaf);
    }
    for frame in 0..PAGES {
        world.put(frame, mergeable(frame).open());
    }
    world.put(n - 1, Entry::LEAF);
    world
}

fn opened_or_not(random: &mut Random, entry: Entry) -> Entry {
    if random.coin() {
        entry.open()
    } else {
        entry
    }
}

/// Gives some more guests a place in a fixed page.
fn join(world: &mut World, random: &mut Random, page: usize, leaf: usize) {
    for _ in 0..4 {
        let asid = guest(random.below(FRAME_WORDS)) as usize;
        world.set(leaf, asid, present(gpa(page)));
    }
}
