//! The calls by virtual address, accepted and refused: on the way, at the end of it, or before it.

use common::layout::{address, MERGEABLE, PRIVATE};
use common::page_tables::{entry, index, GUEST_END, LARGE, LEVELS};

use super::{repeated, steady};
use crate::calls::{PvalidateVa, ReadVa, Walk, WriteVa};
use crate::page_tables::{
    merged_page, merged_tables, page, private_tables, spread, GUEST, GUEST_FRAMES, PAGE, SLOTS,
};
use crate::scene::{Scene, Turn};
use crate::world::World;

/// The word of the page that is read and written.
const INDEX: usize = 3;

fn walking(slot: usize) -> Walk {
    Walk {
        caller: GUEST,
        root: spread(0),
        root_type: PRIVATE,
        host_root: address(0),
        va: spread(slot),
    }
}

#[rustfmt::skip]
fn validating(slot: usize, kind: u64) -> PvalidateVa {
    let Walk { caller, root, root_type, host_root, va } = walking(slot);
    PvalidateVa { caller, root, root_type, host_root, va, kind }
}

#[rustfmt::skip]
fn reading(slot: usize) -> ReadVa {
    let Walk { caller, root, root_type, host_root, va } = walking(slot);
    ReadVa { caller, root, root_type, host_root, va, index: INDEX as u64 }
}

#[rustfmt::skip]
fn writing(slot: usize) -> WriteVa {
    let Walk { caller, root, root_type, host_root, va } = walking(slot);
    WriteVa { caller, root, root_type, host_root, va, index: INDEX as u64, value: va }
}

/// PRIVATE tables that lead to an open PRIVATE page.
fn open(n: usize) -> World {
    let mut world = private_tables(n, page(PRIVATE).open());
    world.set(PAGE, INDEX, 42);
    world
}

/// The same to a page that is not open.
fn closed(n: usize) -> World {
    private_tables(n, page(PRIVATE))
}

/// A call that can be made again and again, by each virtual address in turn.
fn scene<C: Copy>(world: World, call: impl Fn(usize) -> C) -> Scene<C, 0, 0> {
    Scene {
        world,
        turns: steady(SLOTS, call),
    }
}

/// The walk by PRIVATE tables.
pub fn found(n: usize) -> Scene<Walk, 0, 0> {
    scene(open(n), walking)
}

/// The walk by tables in a page that the guest was merged into.
pub fn found_merged(n: usize) -> Scene<Walk, 0, 0> {
    let world = merged_tables(n, page(PRIVATE).open());
    scene(world, |slot| Walk {
        root_type: MERGEABLE,
        ..walking(slot)
    })
}

/// PVALIDATE that opens the page. One word is put back.
pub fn opened(n: usize) -> Scene<PvalidateVa, 1, 0> {
    let [head, _] = page(PRIVATE).placed(PAGE);
    let turn = |slot| Turn {
        call: validating(slot, PRIVATE),
        table: [head],
        memory: [],
    };
    Scene {
        world: closed(n),
        turns: repeated((0..SLOTS).map(turn).collect()),
    }
}

/// READ of the guest's own page.
pub fn read(n: usize) -> Scene<ReadVa, 0, 0> {
    scene(open(n), reading)
}

/// WRITE to the guest's own page.
pub fn write(n: usize) -> Scene<WriteVa, 0, 0> {
    scene(open(n), writing)
}

/// The walk that meets an absent entry in the guest's last table.
pub fn absent(n: usize) -> Scene<Walk, 0, 0> {
    met(n, LEVELS.len() - 1, 0)
}

/// The walk that meets bit 7 in the guest's top table.
pub fn large(n: usize) -> Scene<Walk, 0, 0> {
    met(n, 0, entry(spread(1), PRIVATE) | LARGE)
}

/// The walk that meets this word in the guest's table of a level.
fn met(n: usize, level: usize, word: u64) -> Scene<Walk, 0, 0> {
    let mut world = open(n);
    for va in (0..SLOTS).map(spread) {
        world.set(GUEST_FRAMES[level], index(va, LEVELS[level]), word);
    }
    scene(world, walking)
}

/// The walk of an address whose bits 63:48 are unlike bit 47.
pub fn no_address(n: usize) -> Scene<Walk, 0, 0> {
    scene(open(n), |slot| Walk {
        va: spread(slot) + GUEST_END,
        ..walking(slot)
    })
}

/// PVALIDATE of a page of another type.
pub fn validate_other(n: usize) -> Scene<PvalidateVa, 0, 0> {
    scene(closed(n), |slot| validating(slot, MERGEABLE))
}

/// READ of a page that is not open.
pub fn read_closed(n: usize) -> Scene<ReadVa, 0, 0> {
    scene(closed(n), reading)
}

/// WRITE to a fixed page.
pub fn write_fixed(n: usize) -> Scene<WriteVa, 0, 0> {
    scene(merged_page(n), writing)
}
