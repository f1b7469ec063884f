//! READ and WRITE, accepted.

use common::layout::{address, present, MERGEABLE, PRIVATE, SHARED};

use super::steady;
use crate::calls::{Read, Write};
use crate::scene::Scene;
use crate::world::{gpa, guest, private, World};

const FRAMES: usize = 4;
/// The word of each frame that is read and written.
const INDEX: usize = 3;

/// Open pages of guests, in all frames or the first few.
pub fn open_pages(n: usize, frames: usize) -> World {
    let mut world = World::new(n);
    for frame in 0..frames {
        world.put(frame, private(frame).open());
        world.set(frame, INDEX, frame as u64 + 42);
    }
    world
}

/// The call by which a guest reads its own page.
pub fn reading(frame: usize, index: usize) -> Read {
    Read {
        caller: guest(frame),
        gpa: gpa(frame),
        hpa: address(frame),
        gtype: PRIVATE,
        ntype: PRIVATE,
        index: index as u64,
    }
}

/// The call by which a guest writes to its own page.
pub fn writing(frame: usize, index: usize) -> Write {
    let Read {
        caller,
        gpa,
        hpa,
        gtype,
        ntype,
        index,
    } = reading(frame, index);
    let value = hpa + index;
    Write {
        caller,
        gpa,
        hpa,
        gtype,
        ntype,
        index,
        value,
    }
}

/// READ of a page of the caller's own.
pub fn read_own(n: usize) -> Scene<Read, 0, 0> {
    Scene {
        world: open_pages(n, FRAMES),
        turns: steady(FRAMES, |frame| reading(frame, INDEX)),
    }
}

/// WRITE to a page of the caller's own.
pub fn write_own(n: usize) -> Scene<Write, 0, 0> {
    Scene {
        world: open_pages(n, FRAMES),
        turns: steady(FRAMES, |frame| writing(frame, INDEX)),
    }
}

/// READ of a fixed page by a guest that was merged into it. Each page has its leaf in the next frame.
pub fn read_merged(n: usize) -> Scene<Read, 0, 0> {
    let mut world = World::new(n);
    for page in (0..FRAMES).map(|slot| 2 * slot) {
        world.fix(page, page + 1, guest(page));
        world.set(page + 1, guest(page + 1) as usize, present(gpa(page + 1)));
        world.set(page, INDEX, page as u64 + 42);
    }
    let call = |slot| Read {
        caller: guest(2 * slot + 1),
        gpa: gpa(2 * slot + 1),
        hpa: address(2 * slot),
        gtype: MERGEABLE,
        ntype: MERGEABLE,
        index: INDEX as u64,
    };
    Scene {
        world,
        turns: steady(FRAMES, call),
    }
}

/// READ of a SHARED frame by a guest.
pub fn read_shared(n: usize) -> Scene<Read, 0, 0> {
    let mut world = World::new(n);
    for frame in 0..FRAMES {
        world.set(frame, INDEX, frame as u64 + 42);
    }
    let call = |frame| Read {
        gtype: SHARED,
        ntype: SHARED,
        ..reading(frame, INDEX)
    };
    Scene {
        world,
        turns: steady(FRAMES, call),
    }
}
