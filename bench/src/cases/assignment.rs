//! RMPUPDATE and PVALIDATE, accepted.

use common::layout::{address, PRIVATE};
use skorbilek::HOST;

use super::{repeated, steady};
use crate::calls::{Pvalidate, Rmpupdate};
use crate::scene::{Scene, Turn};
use crate::world::{gpa, guest, private, World};

const FRAMES: usize = 4;

/// Pages of guests, not open, in all frames or the first few.
pub fn pages(n: usize, frames: usize) -> World {
    let mut world = World::new(n);
    for frame in 0..frames {
        world.put(frame, private(frame));
    }
    world
}

/// RMPUPDATE that leaves the entry as it is.
pub fn stays(n: usize) -> Scene<Rmpupdate, 0, 0> {
    Scene {
        world: pages(n, FRAMES),
        turns: steady(FRAMES, |frame| given(frame, guest(frame))),
    }
}

/// RMPUPDATE that gives each frame to another guest, and on the next turn back.
pub fn changes(n: usize) -> Scene<Rmpupdate, 0, 0> {
    let to_other = (0..FRAMES).map(|frame| given(frame, guest(frame) + 1));
    let back = (0..FRAMES).map(|frame| given(frame, guest(frame)));
    Scene {
        world: pages(n, FRAMES),
        turns: repeated(to_other.chain(back).map(Turn::steady).collect()),
    }
}

/// The call by which the host gives a frame to a guest.
pub fn given(frame: usize, asid: u64) -> Rmpupdate {
    Rmpupdate {
        caller: HOST,
        hpa: address(frame),
        gpa: gpa(frame),
        asid,
        kind: PRIVATE,
    }
}

/// PVALIDATE that opens a page. One word is put back.
pub fn opened(n: usize) -> Scene<Pvalidate, 1, 0> {
    let turn = |frame| {
        let [head, _] = private(frame).placed(frame);
        Turn {
            call: Pvalidate {
                caller: guest(frame),
                gpa: gpa(frame),
                hpa: address(frame),
                kind: PRIVATE,
            },
            table: [head],
            memory: [],
        }
    };
    Scene {
        world: pages(n, FRAMES),
        turns: repeated((0..FRAMES).map(turn).collect()),
    }
}
