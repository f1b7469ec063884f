//! A table and a memory, and what is put into them before a measurement.

use std::hint::black_box;

use common::layout::{
    address, memory_words, present, table_words, word_at, Entry, FRAME_BYTES, FRAME_WORDS,
    MERGEABLE, PRIVATE,
};

/// Words whose first one stands at the start of a page of the machine.
#[derive(PartialEq)]
pub struct Words {
    store: Vec<u64>,
    start: usize,
    len: usize,
}

impl Words {
    /// So many words of zero. Each page is written to, so that it is memory of its own and not the one page of zeros.
    pub fn new(len: usize) -> Self {
        let mut store = vec![0; len + FRAME_WORDS];
        let start = store.as_ptr().align_offset(FRAME_BYTES as usize);
        for word in store.iter_mut().step_by(FRAME_WORDS) {
            *word = black_box(0);
        }
        Self { store, start, len }
    }

    /// The words.
    pub fn all(&mut self) -> &mut [u64] {
        &mut self.store[self.start..self.start + self.len]
    }
}

/// A table of N frames and a memory of M.
pub struct World {
    n: usize,
    table: Words,
    memory: Words,
}

impl World {
    /// An empty table of `n` frames and a zeroed memory: M is 10 where N is 8, as in the script program, and else twice N.
    pub fn new(n: usize) -> Self {
        Self {
            n,
            table: Words::new(table_words(n)),
            memory: Words::new(memory_words(if n == 8 { 10 } else { 2 * n })),
        }
    }

    /// N.
    pub fn n(&self) -> usize {
        self.n
    }

    /// Table and memory, as the calls take them.
    pub fn slices(&mut self) -> (&mut [u64], &mut [u64]) {
        (self.table.all(), self.memory.all())
    }

    /// Stores an entry.
    pub fn put(&mut self, frame: usize, entry: Entry) {
        entry.put(self.table.all(), frame);
    }

    /// The entry of a frame.
    pub fn entry(&mut self, frame: usize) -> Entry {
        Entry::at(self.table.all(), frame)
    }

    /// Stores a word of a frame.
    pub fn set(&mut self, frame: usize, index: usize, word: u64) {
        self.memory.all()[word_at(frame, index)] = word;
    }

    /// Makes `page` a fixed page of the guest at its address, with its leaf in the frame `leaf`.
    pub fn fix(&mut self, page: usize, leaf: usize, asid: u64) {
        self.put(page, Entry::fixed(asid, address(leaf)));
        self.put(leaf, Entry::LEAF);
        self.set(leaf, asid as usize, present(gpa(page)));
    }
}

/// The guest's address at which these worlds have the page in a frame.
pub fn gpa(frame: usize) -> u64 {
    address(frame) + 0x5000_0000
}

/// The guest that these worlds give a frame to, one of 16.
pub fn guest(frame: usize) -> u64 {
    1 + frame as u64 % 16
}

/// The entry of a PRIVATE page that is not open.
pub fn private(frame: usize) -> Entry {
    Entry::closed(guest(frame), PRIVATE, gpa(frame))
}

/// The entry of a MERGEABLE page that is not open.
pub fn mergeable(frame: usize) -> Entry {
    Entry::closed(guest(frame), MERGEABLE, gpa(frame))
}
