//! States with page tables of a host and of a guest, in which walks get to their end, or meet something wrong on the way.

mod spoil;

use common::layout::{
    address, present, word_at, Entry, FRAME_BYTES, FRAME_WORDS, MERGEABLE, PRIVATE, SHARED,
};
use common::page_tables::{entry, index, virtual_address, GUEST_END, IGNORED, LARGE, LEVELS};
use second::Virtual;

use crate::random::Random;
use crate::state::State;
use crate::states;

/// A state, and virtual addresses that its page tables are about.
pub struct Built {
    pub state: State,
    pub at: Vec<Virtual>,
}

/// A page of the guest, what its type is to it, and whether the guest has opened it or need not.
#[derive(Clone, Copy)]
struct Page {
    gpa: u64,
    frame: usize,
    kind: u64,
    open: bool,
}

struct Builder<'a> {
    random: &'a mut Random,
    state: State,
    caller: u64,
    /// The frames that nothing is in yet.
    free: Vec<usize>,
    /// The frame of the host's top table, and those of all its tables; one may have several levels.
    root: usize,
    tables: Vec<usize>,
    /// Where the entries of the page tables are in memory.
    entries: Vec<usize>,
}

/// A small state with page tables. The tables are right as often as not.
pub fn small(random: &mut Random) -> Built {
    let n = 3 + random.index(8);
    let m = n + random.index(4);
    let mut free: Vec<usize> = (0..m).collect();
    random.shuffle(&mut free);
    let mut built = built(random, State::zero(n, m), free);
    if random.chance(3) {
        states::missize(random, &mut built.state);
    }
    built
}

/// The same in a large state: the tables are in frames at both ends of table and memory, and in any.
pub fn large(random: &mut Random, size: (usize, usize)) -> Built {
    let state = states::large(random, size);
    let (n, m) = size;
    let any = [0; 6].map(|_| random.index(m));
    let ends = [n.saturating_sub(4), n - 1, n, m - 1, 3];
    let fit = |frame: &usize| *frame >= n || state.entry(*frame) == Entry::SHARED;
    let mut free: Vec<usize> = any.into_iter().chain(ends).collect();
    free.retain(|frame| *frame < m && fit(frame));
    free.sort_unstable();
    free.dedup();
    random.shuffle(&mut free);
    built(random, state, free)
}

/// Puts page tables into frames of a state that nothing is in; there is one at least.
fn built(random: &mut Random, state: State, free: Vec<usize>) -> Built {
    let mut builder = Builder::new(random, state, free);
    let count = 1 + builder.random.index(5);
    let pages: Vec<Page> = (0..count).map(|_| builder.page()).collect();
    let count = 1 + builder.random.index(3);
    let at = (0..count).map(|_| builder.way(&pages)).collect();
    for _ in 0..builder.random.pick(&[0, 0, 0, 1, 1, 2]) {
        builder.spoil();
    }
    let state = builder.state;
    Built { state, at }
}

impl<'a> Builder<'a> {
    /// No page yet, and the host's tables in a frame or a few, which may be above N.
    fn new(random: &'a mut Random, state: State, mut free: Vec<usize>) -> Self {
        let kept = free.len().saturating_sub(random.pick(&[1, 1, 2, 4]));
        let tables = free.split_off(kept);
        Self {
            state,
            caller: random.pick(&[1, 2, 7, 511]),
            free,
            root: random.pick(&tables),
            tables,
            entries: Vec::new(),
            random,
        }
    }

    /// A frame that nothing is in: one that has an entry, if that is asked for.
    fn take(&mut self, with_entry: bool) -> Option<usize> {
        let n = self.state.n();
        let place = self
            .free
            .iter()
            .position(|&frame| frame < n || !with_entry)?;
        Some(self.free.swap_remove(place))
    }

    /// A new page, which the host's tables have; a SHARED one where there is no other frame.
    fn page(&mut self) -> Page {
        let gpa = self.guest_address();
        let kinds = [SHARED, PRIVATE, PRIVATE, MERGEABLE, MERGEABLE];
        let kind = self.random.pick(&kinds);
        let (frame, kind) = match self.take(kind != SHARED) {
            Some(frame) => (frame, kind),
            None => (self.root, SHARED),
        };
        let open = kind == SHARED || self.random.chance(80);
        #[rustfmt::skip]
        let page = Page { gpa, frame, kind, open };
        if page.kind != SHARED {
            self.give(page);
        }
        self.map(page);
        page
    }

    fn guest_address(&mut self) -> u64 {
        match self.random.below(8) {
            0 => self.random.pick(&[0, GUEST_END - FRAME_BYTES]),
            1 => self.random.below(8) * FRAME_BYTES,
            _ => self.random.below(GUEST_END / FRAME_BYTES) * FRAME_BYTES,
        }
    }

    /// Makes the frame the guest's page, one that is open and MERGEABLE now and then a merged one.
    fn give(&mut self, page: Page) {
        let closed = Entry::closed(self.caller, page.kind, page.gpa);
        let unfixed = Entry {
            validated: page.open,
            ..closed
        };
        self.state.put(page.frame, unfixed);
        if page.kind == MERGEABLE && page.open && self.random.chance(50) {
            if let Some(leaf) = self.take(true) {
                self.fix(page, leaf);
            }
        }
    }

    /// Makes the page a fixed one, the guest's or another's, in which the guest has its place.
    fn fix(&mut self, page: Page, leaf: usize) {
        let owner = self.random.pick(&[self.caller, 7, 9]);
        self.state
            .put(page.frame, Entry::fixed(owner, address(leaf)));
        self.state.put(leaf, Entry::LEAF);
        self.state.memory[word_at(leaf, owner as usize)] = present(0x50000);
        self.state.memory[word_at(leaf, self.caller as usize)] = present(page.gpa);
    }

    /// Puts the page into the host's tables, by any of them. The types above the last level are any.
    fn map(&mut self, page: Page) {
        let lower = [0; 3].map(|_| self.random.pick(&self.tables));
        let mut frame = self.root;
        for (place, level) in LEVELS.into_iter().enumerate() {
            let (below, kind) = match lower.get(place) {
                Some(&below) => (below, self.random.below(4)),
                None => (page.frame, page.kind),
            };
            let word = entry(address(below), kind);
            self.put(frame, index(page.gpa, level), word, level);
            frame = below;
        }
    }

    /// Puts a page at a virtual address, by tables in open ones: the last of these pages by the others, or any by any.
    fn way(&mut self, pages: &[Page]) -> Virtual {
        let (last, others) = pages.split_last().expect("there is a page");
        let (page, tables) = match others.is_empty() || self.random.chance(30) {
            true => (self.random.pick(pages), pages),
            false => (*last, others),
        };
        let open: Vec<Page> = tables.iter().copied().filter(|page| page.open).collect();
        let any = open.is_empty() || self.random.chance(10);
        let tables = [0; 4].map(|_| self.random.pick(if any { tables } else { &open }));
        let va = match self.random.below(6) {
            0 => self
                .random
                .pick(&[0, 0x7fff_ffff_f000, 0xffff_8000_0000_0000]),
            _ => virtual_address([0; 4].map(|_| self.random.index(FRAME_WORDS))),
        };
        for (place, level) in LEVELS.into_iter().enumerate() {
            let below = tables.get(place + 1).unwrap_or(&page);
            let word = entry(below.gpa, below.kind);
            self.put(tables[place].frame, index(va, level), word, level);
        }
        Virtual {
            caller: self.caller,
            root: tables[0].gpa,
            root_type: tables[0].kind,
            host_root: address(self.root),
            va,
        }
    }

    /// Puts an entry into a table, now and then with bits that are ignored.
    fn put(&mut self, frame: usize, index: usize, mut word: u64, level: u32) {
        if self.random.chance(30) {
            word |= self.random.word() & IGNORED;
        }
        if level == LEVELS[3] && self.random.chance(10) {
            word |= LARGE;
        }
        let position = word_at(frame, index);
        self.state.memory[position] = word;
        self.entries.push(position);
    }
}

#[cfg(test)]
mod tests {
    use super::*;
    use second::walk;

    /// A third of them, at least, do.
    #[test]
    #[rustfmt::skip]
    fn many_walks_get_to_their_end() {
        let mut random = Random::new(3);
        let (mut made, mut ended) = (0, 0);
        for _ in 0..2000 {
            let Built { state: State { table, memory }, at } = small(&mut random);
            for Virtual { caller, root, root_type, host_root, va } in at {
                let found = walk(&table, &memory, caller, root, root_type, host_root, va);
                made += 1;
                ended += u32::from(found.is_ok());
            }
        }
        assert!(ended * 3 > made, "{ended} of {made}");
    }
}
