//! The nine calls, refused by the third of their checks: 3, the wrong caller; and 2 for CENSUS, which anyone may call. READ and CENSUS
//! refused for an entry that is bad too: 5, with the reason.

use common::layout::{address, Entry, ADDRESS_END, LEAF};
use skorbilek::HOST;

use super::{access, assignment, steady};
use crate::calls::{Census, Pfix, Pmerge, Punfix, Punmerge, Pvalidate, Read, Rmpupdate, Write};
use crate::scene::Scene;
use crate::world::{gpa, guest, private, World};

const FRAMES: usize = 4;
/// A guest, where the caller has to be the host.
const GUEST: u64 = 7;

/// A call on frames of an empty table.
fn refused<C: Copy>(n: usize, call: impl Fn(usize) -> C) -> Scene<C, 0, 0> {
    Scene {
        world: World::new(n),
        turns: steady(FRAMES, call),
    }
}

pub fn rmpupdate(n: usize) -> Scene<Rmpupdate, 0, 0> {
    refused(n, |frame| Rmpupdate {
        caller: GUEST,
        ..assignment::given(frame, guest(frame))
    })
}

pub fn pvalidate(n: usize) -> Scene<Pvalidate, 0, 0> {
    refused(n, |frame| Pvalidate {
        caller: HOST,
        gpa: gpa(frame),
        hpa: address(frame),
        kind: LEAF - 1,
    })
}

pub fn pfix(n: usize) -> Scene<Pfix, 0, 0> {
    refused(n, |frame| Pfix {
        caller: GUEST,
        hpa: address(frame),
        leaf: address(frame + 1),
    })
}

pub fn pmerge(n: usize) -> Scene<Pmerge, 0, 0> {
    refused(n, |frame| Pmerge {
        caller: GUEST,
        hpa1: address(frame),
        hpa2: address(frame + 1),
    })
}

pub fn punmerge(n: usize) -> Scene<Punmerge, 0, 0> {
    refused(n, |frame| Punmerge {
        caller: GUEST,
        hpa1: address(frame),
        hpa2: address(frame + 1),
        asid: guest(frame),
    })
}

pub fn punfix(n: usize) -> Scene<Punfix, 0, 0> {
    refused(n, |frame| Punfix {
        caller: GUEST,
        hpa: address(frame),
    })
}

pub fn read(n: usize) -> Scene<Read, 0, 0> {
    refused(n, |frame| Read {
        caller: HOST,
        ..access::reading(frame, 0)
    })
}

pub fn write(n: usize) -> Scene<Write, 0, 0> {
    refused(n, |frame| Write {
        caller: HOST,
        ..access::writing(frame, 0)
    })
}

pub fn census(n: usize) -> Scene<Census, 0, 0> {
    refused(n, |_| Census { asid: HOST })
}

/// READ of a page whose entry breaks the last of the four rules: word 1 is no address.
pub fn read_bad(n: usize) -> Scene<Read, 0, 0> {
    Scene {
        world: bad_pages(n),
        turns: steady(FRAMES, |frame| access::reading(frame, 0)),
    }
}

/// CENSUS, refused at the first frame.
pub fn census_bad(n: usize) -> Scene<Census, 0, 0> {
    Scene {
        world: bad_pages(n),
        turns: steady(FRAMES, |frame| Census { asid: guest(frame) }),
    }
}

/// Open pages at no address, in the first frames.
fn bad_pages(n: usize) -> World {
    let mut world = World::new(n);
    for frame in 0..FRAMES {
        let address = gpa(frame) + ADDRESS_END;
        let page = private(frame).open();
        world.put(frame, Entry { address, ..page });
    }
    world
}
