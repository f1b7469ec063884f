//! Worlds with page tables: the host's in SHARED frames, a guest's in pages of its own or in a merged one, and a page to which both lead.
//!
//! A walk reads 24 words: four of the host's for each of five guest addresses, and four of the guest's. They lie in cache lines of their
//! own, since `spread` addresses have no index twice. All of it fits into N = 8: the host's four tables share two frames.

use std::array::from_fn;

use common::layout::{address, present, Entry, MERGEABLE, PRIVATE, SHARED};
use common::page_tables::{entry, index, virtual_address, LEVELS};

use crate::world::World;

/// The guest whose tables they are.
pub const GUEST: u64 = 7;
/// The owner of the fixed pages, in which the guest has a place.
const OWNER: u64 = 9;

/// How many levels there are.
const DEPTH: usize = LEVELS.len();
/// The frames of the host's tables and of the guest's, from the top down.
const HOST_FRAMES: [usize; DEPTH] = [0, 1, 0, 1];
pub const GUEST_FRAMES: [usize; DEPTH] = [2, 3, 4, 5];
/// The frame of the guest's tables where all four are one fixed page, and of its leaf.
const TABLE: usize = 2;
const TABLE_LEAF: usize = 3;
/// The frame of the page, and of its leaf if it is fixed.
pub const PAGE: usize = 6;
const PAGE_LEAF: usize = 7;

/// The virtual addresses that lead to the page are those of slots 0 to 3. The guest's tables are at the same guest addresses.
pub const SLOTS: usize = DEPTH;

/// The address of a slot. No two indices of the addresses of slots 0 to 4 are the same, and all are 25 words apart.
pub fn spread(slot: usize) -> u64 {
    virtual_address(from_fn(|level| 25 * ((SLOTS + 1) * level + slot)))
}

/// The guest address of the page.
fn page_gpa() -> u64 {
    spread(SLOTS)
}

/// The entry of the page, not open.
pub fn page(kind: u64) -> Entry {
    Entry::closed(GUEST, kind, page_gpa())
}

/// Tables from the top down: their frames, the addresses by which entries name them, and their type.
struct Tables {
    frames: [usize; DEPTH],
    addresses: [u64; DEPTH],
    kind: u64,
}

impl Tables {
    fn host() -> Self {
        Self {
            frames: HOST_FRAMES,
            addresses: HOST_FRAMES.map(address),
            kind: SHARED,
        }
    }

    /// Leads from an address to another, of this type.
    fn map(&self, world: &mut World, from: u64, to: u64, kind: u64) {
        for (depth, level) in LEVELS.into_iter().enumerate() {
            let word = match self.addresses.get(depth + 1) {
                Some(&below) => entry(below, self.kind),
                None => entry(to, kind),
            };
            world.set(self.frames[depth], index(from, level), word);
        }
    }

    /// A world in which the guest has these tables, and the page has this entry.
    fn world(self, n: usize, page: Entry) -> World {
        let mut world = World::new(n);
        let host = Tables::host();
        for (gpa, frame) in self.addresses.into_iter().zip(self.frames) {
            host.map(&mut world, gpa, address(frame), self.kind);
        }
        host.map(&mut world, page_gpa(), address(PAGE), page.kind);
        for va in (0..SLOTS).map(spread) {
            self.map(&mut world, va, page_gpa(), page.kind);
        }
        world.put(PAGE, page);
        world
    }
}

/// A world in which the guest's tables are four PRIVATE pages, and the page has this entry.
pub fn private_tables(n: usize, page: Entry) -> World {
    let tables = Tables {
        frames: GUEST_FRAMES,
        addresses: from_fn(spread),
        kind: PRIVATE,
    };
    let mut world = tables.world(n, page);
    for (slot, frame) in GUEST_FRAMES.into_iter().enumerate() {
        let page = Entry::closed(GUEST, PRIVATE, spread(slot));
        world.put(frame, page.open());
    }
    world
}

/// A world in which the guest's four tables are one page, the guest was merged into it, and the page has this entry.
pub fn merged_tables(n: usize, page: Entry) -> World {
    let tables = Tables {
        frames: [TABLE; DEPTH],
        addresses: [spread(0); DEPTH],
        kind: MERGEABLE,
    };
    let mut world = tables.world(n, page);
    join(&mut world, TABLE, TABLE_LEAF, spread(0));
    world
}

/// A world in which the guest's tables are four PRIVATE pages, and the guest was merged into the page.
pub fn merged_page(n: usize) -> World {
    let mut world = private_tables(n, page(MERGEABLE));
    join(&mut world, PAGE, PAGE_LEAF, page_gpa());
    world
}

/// Fixes a page as another guest's, and gives the guest a place in it.
fn join(world: &mut World, page: usize, leaf: usize, gpa: u64) {
    world.fix(page, leaf, OWNER);
    world.set(leaf, GUEST as usize, present(gpa));
}

#[cfg(test)]
mod tests {
    use super::*;
    use common::layout::word_at;
    use std::collections::HashSet;

    /// The cache lines that a walk reads.
    fn lines(va: u64) -> HashSet<usize> {
        let host = (0..=SLOTS).map(|slot| (HOST_FRAMES, spread(slot)));
        let tables = host.chain([(GUEST_FRAMES, va)]);
        let words = tables.flat_map(|(frames, from)| {
            let tables = frames.into_iter().zip(LEVELS);
            tables.map(move |(frame, level)| word_at(frame, index(from, level)))
        });
        words.map(|word| word / 8).collect()
    }

    #[test]
    fn the_words_of_a_walk_are_in_lines_of_their_own() {
        for va in (0..SLOTS).map(spread) {
            assert_eq!(lines(va).len(), 24);
        }
    }
}
