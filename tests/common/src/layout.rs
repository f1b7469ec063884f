//! The layout of table and memory: where the words of an entry and of a frame lie, and what their bits are. No other file of the comparison
//! and the benchmark says it.
//!
//! It is written from docs/CALLS.md, 'Words and layout', and takes nothing from the two programs that are compared: a mistake in the layout
//! of one of them would else be made in the states that both are given, and not be seen. Nothing here asks whether an entry is well
//! formed, since the states that calls are compared on often have others.

use std::ops::Range;

pub const FRAME_WORDS: usize = 512;
pub const FRAME_BYTES: u64 = 4096;
pub const ENTRY_WORDS: usize = 2;

/// Addresses are the multiples of `FRAME_BYTES` below this.
pub const ADDRESS_END: u64 = 1 << 52;
/// How many addresses there are.
pub const ADDRESSES: u64 = ADDRESS_END / FRAME_BYTES;

pub const SHARED: u64 = 0;
pub const PRIVATE: u64 = 1;
pub const MERGEABLE: u64 = 2;
pub const LEAF: u64 = 3;

const ASID_MASK: u64 = 0xffff;
const KIND_SHIFT: u64 = 16;
const KIND_MASK: u64 = 3;
const VALIDATED: u64 = 1 << 18;
const FIXED: u64 = 1 << 19;
const UNUSED_SHIFT: u64 = 20;
/// How many bits of word 0, the highest ones, no field has.
pub const UNUSED_BITS: u64 = 64 - UNUSED_SHIFT;

const PRESENT: u64 = 1;

/// An entry by its bits: any words are one entry, and each entry has its own words.
#[derive(Clone, Copy, PartialEq, Eq, Debug)]
pub struct Entry {
    pub asid: u64,
    pub kind: u64,
    pub validated: bool,
    pub fixed: bool,
    /// What the unused bits hold: 0 if the entry is well formed.
    pub unused: u64,
    /// The guest's address, or the leaf's if the page is fixed.
    pub address: u64,
}

impl Entry {
    /// The entry of a frame that is nobody's: all its words are zero.
    pub const SHARED: Self = Self::closed(0, SHARED, 0);
    pub const LEAF: Self = Self::closed(0, LEAF, 0);

    /// An entry without flags: that of a page which its guest has not opened.
    pub const fn closed(asid: u64, kind: u64, address: u64) -> Self {
        Self {
            asid,
            kind,
            validated: false,
            fixed: false,
            unused: 0,
            address,
        }
    }

    /// The same entry with VALIDATED: its guest has opened the page.
    pub const fn open(self) -> Self {
        Self {
            validated: true,
            ..self
        }
    }

    /// The entry of a fixed page whose leaf is at this address.
    pub const fn fixed(asid: u64, leaf: u64) -> Self {
        Self {
            fixed: true,
            ..Self::closed(asid, MERGEABLE, leaf).open()
        }
    }

    pub fn of(words: [u64; ENTRY_WORDS]) -> Self {
        let [head, address] = words;
        Self {
            asid: head & ASID_MASK,
            kind: head >> KIND_SHIFT & KIND_MASK,
            validated: head & VALIDATED != 0,
            fixed: head & FIXED != 0,
            unused: head >> UNUSED_SHIFT,
            address,
        }
    }

    pub fn words(self) -> [u64; ENTRY_WORDS] {
        let flag = |set: bool, bit: u64| if set { bit } else { 0 };
        let flags = flag(self.validated, VALIDATED) | flag(self.fixed, FIXED);
        let head = self.asid | self.kind << KIND_SHIFT | flags | self.unused << UNUSED_SHIFT;
        [head, self.address]
    }

    /// The entry of a frame in a table.
    pub fn at(table: &[u64], frame: usize) -> Self {
        Self::of(std::array::from_fn(|word| table[entry_at(frame)][word]))
    }

    /// Makes it the entry of a frame.
    pub fn put(self, table: &mut [u64], frame: usize) {
        table[entry_at(frame)].copy_from_slice(&self.words());
    }

    /// Its words as the entry of a frame, each with its place in the table; the word with type and flags comes first.
    pub fn placed(self, frame: usize) -> [(usize, u64); ENTRY_WORDS] {
        let words = self.words();
        std::array::from_fn(|word| (entry_at(frame).start + word, words[word]))
    }
}

/// How many words a table of N frames has.
pub fn table_words(n: usize) -> usize {
    ENTRY_WORDS * n
}

/// How many words a memory of M frames has.
pub fn memory_words(m: usize) -> usize {
    FRAME_WORDS * m
}

/// N, if the table has no word too many.
pub fn n(table: &[u64]) -> usize {
    table.len() / ENTRY_WORDS
}

/// M, if memory has no word too many.
pub fn m(memory: &[u64]) -> usize {
    memory.len() / FRAME_WORDS
}

/// Where a frame's entry is in the table.
pub fn entry_at(frame: usize) -> Range<usize> {
    ENTRY_WORDS * frame..ENTRY_WORDS * (frame + 1)
}

/// Where a frame is in memory. Inlined, because the benchmark times code with it.
#[inline]
pub fn frame_at(frame: usize) -> Range<usize> {
    FRAME_WORDS * frame..FRAME_WORDS * (frame + 1)
}

/// Where a word of a frame is in memory. In a leaf, guest a has word a.
pub fn word_at(frame: usize, index: usize) -> usize {
    FRAME_WORDS * frame + index
}

/// The address of a frame.
pub fn address(frame: usize) -> u64 {
    frame as u64 * FRAME_BYTES
}

/// The frame at an address.
pub fn frame_of(address: u64) -> usize {
    (address / FRAME_BYTES) as usize
}

/// The word of a leaf for a guest that has its place at this address.
pub fn present(gpa: u64) -> u64 {
    gpa | PRESENT
}

pub fn is_present(word: u64) -> bool {
    word & PRESENT != 0
}

/// The address in a word of a leaf.
pub fn gpa_of(word: u64) -> u64 {
    word & !PRESENT
}

#[cfg(test)]
mod tests {
    use super::*;

    /// The words that docs/CALLS.md has for entries, well formed ones and others.
    #[test]
    fn entries_have_the_words_of_the_document() {
        let page = Entry::closed(7, MERGEABLE, 0x50000);
        assert_eq!(Entry::SHARED.words(), [0, 0]);
        assert_eq!(page.words(), [0x20007, 0x50000]);
        assert_eq!(page.open().words(), [0x60007, 0x50000]);
        assert_eq!(Entry::fixed(7, address(3)).words(), [0xe0007, 0x3000]);
        let last_guest = Entry::closed(511, PRIVATE, address(1));
        assert_eq!(last_guest.words(), [0x101ff, 0x1000]);
        assert_eq!(Entry::LEAF.words(), [0x30000, 0]);
        let (unused, shared) = (1, Entry::SHARED);
        assert_eq!(Entry { unused, ..shared }.words(), [0x10_0000, 0]);
    }

    #[test]
    fn any_words_are_an_entry() {
        for bit in 0..64 {
            for words in [[1 << bit, 0], [!(1 << bit), u64::MAX], [0, 1 << bit]] {
                assert_eq!(Entry::of(words).words(), words);
            }
        }
    }

    #[test]
    fn an_entry_is_found_where_it_was_put() {
        let entry = Entry::fixed(7, address(3)).words();
        let mut table = vec![0; table_words(3)];
        Entry::of(entry).put(&mut table, 1);
        assert_eq!(table, [0, 0, entry[0], entry[1], 0, 0]);
        assert_eq!(Entry::at(&table, 1).words(), entry);
        assert_eq!(Entry::of(entry).placed(1), [(2, entry[0]), (3, entry[1])]);
    }

    /// Programs that call the library take the sizes and types from the bindings.
    #[test]
    fn the_bindings_have_the_same_numbers() {
        use skorbilek as bindings;
        assert_eq!(bindings::FRAME_WORDS, FRAME_WORDS);
        assert_eq!(bindings::FRAME_BYTES, FRAME_BYTES);
        assert_eq!(bindings::ENTRY_WORDS, ENTRY_WORDS);
        let types = [
            bindings::SHARED,
            bindings::PRIVATE,
            bindings::MERGEABLE,
            bindings::LEAF,
        ];
        assert_eq!(types, [SHARED, PRIVATE, MERGEABLE, LEAF]);
    }
}
