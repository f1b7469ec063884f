//! A table and a memory. Nothing here asks whether an entry is well formed: the states that calls are compared on often have others, and
//! arguments are taken from them all the same.

use common::layout::{self, Entry, LEAF, MERGEABLE, SHARED};

#[derive(Clone, PartialEq, Eq)]
pub struct State {
    pub table: Vec<u64>,
    pub memory: Vec<u64>,
}

/// Frames by what their entries say they are.
#[derive(Default)]
pub struct Roles {
    pub shared: Vec<usize>,
    /// Guests' pages that are not VALIDATED.
    pub closed: Vec<usize>,
    /// Guests' pages that are VALIDATED and not FIXED.
    pub open: Vec<usize>,
    /// Those of the open pages that are MERGEABLE.
    pub mergeable: Vec<usize>,
    pub fixed: Vec<usize>,
    pub leaves: Vec<usize>,
}

impl State {
    pub fn zero(n: usize, m: usize) -> Self {
        Self {
            table: vec![0; layout::table_words(n)],
            memory: vec![0; layout::memory_words(m)],
        }
    }

    pub fn n(&self) -> usize {
        layout::n(&self.table)
    }

    pub fn m(&self) -> usize {
        layout::m(&self.memory)
    }

    pub fn entry(&self, frame: usize) -> Entry {
        Entry::at(&self.table, frame)
    }

    pub fn put(&mut self, frame: usize, entry: Entry) {
        entry.put(&mut self.table, frame);
    }

    /// The words of an entry.
    pub fn entry_mut(&mut self, frame: usize) -> &mut [u64] {
        &mut self.table[layout::entry_at(frame)]
    }

    /// The words of a frame, if memory has it whole.
    pub fn frame(&self, frame: usize) -> Option<&[u64]> {
        self.memory.get(layout::frame_at(frame))
    }

    pub fn frame_mut(&mut self, frame: usize) -> Option<&mut [u64]> {
        self.memory.get_mut(layout::frame_at(frame))
    }

    /// The words of the frame that a fixed page names as its leaf.
    pub fn leaf(&self, page: Entry) -> Option<&[u64]> {
        self.frame(layout::frame_of(page.address))
    }

    pub fn roles(&self) -> Roles {
        let mut roles = Roles::default();
        for frame in 0..self.n() {
            let page = self.entry(frame);
            let list = match page.kind {
                SHARED => &mut roles.shared,
                LEAF => &mut roles.leaves,
                _ if page.fixed => &mut roles.fixed,
                _ if page.validated => &mut roles.open,
                _ => &mut roles.closed,
            };
            list.push(frame);
            if page.kind == MERGEABLE && page.validated && !page.fixed {
                roles.mergeable.push(frame);
            }
        }
        roles
    }
}
