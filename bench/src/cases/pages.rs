//! Whole SHARED pages, accepted and refused: a SHARED access is any party's, so the earliest refusal that all three give is 6.

use common::layout::{address, FRAME_WORDS};

use super::{access, steady};
use crate::calls::PageCheck;
use crate::page_calls::{PageRead, PageWrite};
use crate::scene::Scene;
use crate::world::{gpa, guest, World};

const FRAMES: usize = 4;

/// A page to write, at the start of a page of the machine.
#[repr(align(4096))]
struct Sector([u64; FRAME_WORDS]);

static SECTOR: Sector = Sector([42; FRAME_WORDS]);

fn checking(frame: usize) -> PageCheck {
    PageCheck {
        caller: guest(frame),
        gpa: gpa(frame),
        hpa: address(frame),
    }
}

fn reading(frame: usize) -> PageRead {
    let PageCheck { caller, gpa, hpa } = checking(frame);
    PageRead { caller, gpa, hpa }
}

/// Writes so many words of the sector.
fn writing(frame: usize, length: usize) -> PageWrite {
    let PageCheck { caller, gpa, hpa } = checking(frame);
    let words = &SECTOR.0[..length];
    PageWrite {
        caller,
        gpa,
        hpa,
        words,
    }
}

/// A call on frames of an empty table, which are SHARED.
fn shared<C: Copy>(n: usize, call: impl Fn(usize) -> C) -> Scene<C, 0, 0> {
    Scene {
        world: World::new(n),
        turns: steady(FRAMES, call),
    }
}

/// A call on frames that are pages of guests.
fn owned<C: Copy>(n: usize, call: impl Fn(usize) -> C) -> Scene<C, 0, 0> {
    Scene {
        world: access::open_pages(n, FRAMES),
        turns: steady(FRAMES, call),
    }
}

pub fn check(n: usize) -> Scene<PageCheck, 0, 0> {
    shared(n, checking)
}

pub fn read(n: usize) -> Scene<PageRead, 0, 0> {
    shared(n, reading)
}

pub fn write(n: usize) -> Scene<PageWrite, 0, 0> {
    shared(n, |frame| writing(frame, FRAME_WORDS))
}

pub fn check_owned(n: usize) -> Scene<PageCheck, 0, 0> {
    owned(n, checking)
}

pub fn read_owned(n: usize) -> Scene<PageRead, 0, 0> {
    owned(n, reading)
}

pub fn write_owned(n: usize) -> Scene<PageWrite, 0, 0> {
    owned(n, |frame| writing(frame, FRAME_WORDS))
}

/// A run that is one word short.
pub fn write_short(n: usize) -> Scene<PageWrite, 0, 0> {
    shared(n, |frame| writing(frame, FRAME_WORDS - 1))
}
