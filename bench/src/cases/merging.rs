//! PMERGE, accepted and refused with 16, and PUNMERGE.

use std::ops::Range;

use common::layout::{address, present, word_at, Entry, ENTRY_WORDS, FRAME_WORDS};
use skorbilek::HOST;

use super::repeated;
use crate::calls::{Pmerge, Punmerge};
use crate::scene::{Scene, Turn};
use crate::world::{gpa, guest, mergeable, World};

/// Three frames: a fixed page, its leaf, and the frame that is merged into it or gets a copy of it. N = 8 has room for two of these.
const SLOTS: usize = 2;

/// The three frames of a slot.
fn frames(slot: usize) -> (usize, usize, usize) {
    (3 * slot, 3 * slot + 1, 3 * slot + 2)
}

/// Slots in which two guests have equal pages, all words zero.
pub fn equal_pages(n: usize, slots: usize) -> World {
    let mut world = World::new(n);
    for (one, leaf, two) in (0..slots).map(frames) {
        world.fix(one, leaf, guest(one));
        world.put(two, mergeable(two).open());
    }
    world
}

/// PMERGE of a slot. Frame 2's entry and its guest's word in the leaf are put back; the frame's zeros were zeros before.
pub fn merge(slot: usize) -> Turn<Pmerge, ENTRY_WORDS, 1> {
    let (one, leaf, two) = frames(slot);
    Turn {
        call: Pmerge {
            caller: HOST,
            hpa1: address(one),
            hpa2: address(two),
        },
        table: mergeable(two).open().placed(two),
        memory: [(word_at(leaf, guest(two) as usize), 0)],
    }
}

/// PMERGE of equal frames.
pub fn merged(n: usize) -> Scene<Pmerge, ENTRY_WORDS, 1> {
    Scene {
        world: equal_pages(n, SLOTS),
        turns: repeated((0..SLOTS).map(merge).collect()),
    }
}

/// PMERGE of frames whose last words differ.
pub fn last_differs(n: usize) -> Scene<Pmerge, 0, 0> {
    differ(n, FRAME_WORDS - 1..FRAME_WORDS)
}

/// PMERGE of frames whose first words differ.
pub fn first_differs(n: usize) -> Scene<Pmerge, 0, 0> {
    differ(n, 0..1)
}

/// PMERGE of frames that differ in every word.
pub fn all_differ(n: usize) -> Scene<Pmerge, 0, 0> {
    differ(n, 0..FRAME_WORDS)
}

fn differ(n: usize, indexes: Range<usize>) -> Scene<Pmerge, 0, 0> {
    let mut world = equal_pages(n, SLOTS);
    for (_, _, two) in (0..SLOTS).map(frames) {
        for index in indexes.clone() {
            world.set(two, index, 1);
        }
    }
    let turns = (0..SLOTS).map(|slot| Turn::steady(merge(slot).call));
    Scene {
        world,
        turns: repeated(turns.collect()),
    }
}

/// PUNMERGE of a guest that has a place in a fixed page. Frame 2's entry and the guest's word in the leaf are put back.
pub fn unmerged(n: usize) -> Scene<Punmerge, ENTRY_WORDS, 1> {
    let mut world = World::new(n);
    let turns = (0..SLOTS).map(|slot| {
        let (one, leaf, two) = frames(slot);
        let (asid, place) = (guest(two), present(gpa(two)));
        world.fix(one, leaf, guest(one));
        world.set(leaf, asid as usize, place);
        Turn {
            call: Punmerge {
                caller: HOST,
                hpa1: address(one),
                hpa2: address(two),
                asid,
            },
            table: Entry::SHARED.placed(two),
            memory: [(word_at(leaf, asid as usize), place)],
        }
    });
    let turns = repeated(turns.collect());
    Scene { world, turns }
}
