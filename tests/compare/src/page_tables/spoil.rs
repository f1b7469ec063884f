//! What can be wrong on the way of a walk.

use common::layout::{
    address, frame_of, present, Entry, ADDRESS_END, FRAME_BYTES, FRAME_WORDS, LEAF, MERGEABLE,
    PRIVATE,
};
use common::page_tables::{with_address, with_kind, GUEST_END, LARGE, PRESENT};

use super::Builder;
use crate::damage;

impl Builder<'_> {
    /// Makes something wrong.
    pub fn spoil(&mut self) {
        match self.random.below(10) {
            0..=4 => self.spoil_entry(),
            5..=7 => self.spoil_frame(),
            8 => self.spoil_place(),
            _ => damage::one(self.random, &mut self.state),
        }
    }

    /// An entry of a page table becomes absent, a large page, of another type, at another address, or any word.
    fn spoil_entry(&mut self) {
        let position = self.random.pick(&self.entries);
        let word = self.state.memory[position];
        let (n, m) = (self.state.n(), self.state.m());
        let any = address(self.random.index(m));
        let ends = [
            GUEST_END,
            GUEST_END - FRAME_BYTES,
            ADDRESS_END - FRAME_BYTES,
        ];
        self.state.memory[position] = match self.random.below(9) {
            0 | 1 => word ^ PRESENT,
            2 | 3 => word ^ LARGE,
            4 => with_kind(word, LEAF),
            5 => with_kind(word, self.random.below(4)),
            6 => with_address(word, self.random.pick(&ends)),
            7 => with_address(word, self.random.pick(&[address(n), address(m), any])),
            _ => self.random.word() | PRESENT,
        };
    }

    /// A frame with an entry becomes another guest's, SHARED, a LEAF, or one whose entry is not well formed; or its page is another.
    fn spoil_frame(&mut self) {
        let frame = self.random.index(self.state.n());
        let used = self.random.pick(&self.entries) / FRAME_WORDS;
        let frame = if used < self.state.n() { used } else { frame };
        let entry = self.state.entry(frame);
        let (caller, kind) = (self.caller, self.random.pick(&[PRIVATE, MERGEABLE]));
        let spoilt = match self.random.below(9) {
            0..=2 => damage::broken(self.random, &self.state, entry),
            3 => self.random.pick(&[Entry::LEAF, Entry::SHARED]),
            4 => Entry { asid: 9, ..entry },
            5 => {
                let address = entry.address ^ FRAME_BYTES;
                Entry { address, ..entry }
            }
            6 => {
                let validated = false;
                Entry { validated, ..entry }
            }
            7 => Entry { kind, ..entry },
            _ => Entry::closed(caller, kind, entry.address).open(),
        };
        self.state.put(frame, spoilt);
    }

    /// The guest's word in a leaf becomes absent, misshapen, or one with another address.
    fn spoil_place(&mut self) {
        let Some(page) = self.random.try_pick(&self.state.roles().fixed) else {
            return self.spoil_entry();
        };
        let leaf = frame_of(self.state.entry(page).address);
        let words = [
            0,
            0x50000,
            present(2),
            present(ADDRESS_END),
            present(0x51000),
        ];
        let word = self.random.pick(&words);
        if let Some(words) = self.state.frame_mut(leaf) {
            words[self.caller as usize] = word;
        }
    }
}
