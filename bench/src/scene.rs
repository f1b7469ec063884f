//! A prepared world with the calls that are made on it in turn.
//!
//! Some calls can't be made twice: what an accepted PFIX did has to be undone before the next. So a turn is a call and up to four
//! words, the ones that the call changes and the next call on these frames needs as they were. They are put back after each call,
//! inside the timed loop and on both sides alike. `Nobody` tells what that and the loop cost.

use std::hint::black_box;
use std::time::{Duration, Instant};

use crate::calls::Call;
use crate::world::World;

/// A call, and the words to put back after it: their places and what they were.
#[derive(Clone, Copy)]
pub struct Turn<C, const T: usize, const M: usize> {
    pub call: C,
    pub table: [(usize, u64); T],
    pub memory: [(usize, u64); M],
}

impl<C> Turn<C, 0, 0> {
    /// A call that can be made again and again.
    pub fn steady(call: C) -> Self {
        Self {
            call,
            table: [],
            memory: [],
        }
    }
}

/// A world and the turns on it.
pub struct Scene<C, const T: usize, const M: usize> {
    pub world: World,
    pub turns: Vec<Turn<C, T, M>>,
}

/// Who makes a call.
pub trait Side {
    /// Makes it, and keeps the answer from being optimised away.
    fn make<C: Call>(call: C, table: &mut [u64], memory: &mut [u64]);
}

/// The proved library.
pub struct Ours;

impl Side for Ours {
    #[inline(always)]
    fn make<C: Call>(call: C, table: &mut [u64], memory: &mut [u64]) {
        black_box(&call.ours(table, memory));
    }
}

/// The second implementation.
pub struct Second;

impl Side for Second {
    #[inline(always)]
    fn make<C: Call>(call: C, table: &mut [u64], memory: &mut [u64]) {
        black_box(&call.second(table, memory));
    }
}

/// Nobody, for the time that is no call's.
pub struct Nobody;

impl Side for Nobody {
    #[inline(always)]
    fn make<C: Call>(call: C, _: &mut [u64], _: &mut [u64]) {
        call.nobody();
    }
}

impl<C: Call, const T: usize, const M: usize> Turn<C, T, M> {
    /// Puts the words back.
    #[inline(always)]
    pub fn undo(&self, table: &mut [u64], memory: &mut [u64]) {
        for (index, word) in self.table {
            table[index] = word;
        }
        for (index, word) in self.memory {
            memory[index] = word;
        }
    }
}

impl<C: Call, const T: usize, const M: usize> Scene<C, T, M> {
    /// The time that all turns take, one after another, so many times over.
    #[inline(never)]
    pub fn time<S: Side>(&mut self, times: usize) -> Duration {
        let (table, memory) = self.world.slices();
        let start = Instant::now();
        for _ in 0..times {
            for turn in black_box(self.turns.as_slice()) {
                S::make(turn.call, table, memory);
                turn.undo(table, memory);
            }
        }
        start.elapsed()
    }
}
