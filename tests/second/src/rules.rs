//! The six instructions, each with its checks in the order of document 01,
//! "The calls", and PUNFIX by document 02, Q-3. All checks come before the
//! first change, so a refusal changes nothing.

use crate::call::{Answer, Refusal};
use crate::checks::{
    answer, entry, geometry, leaf_in_use, leaf_of, only_place, place_in_leaf, require, set_entry,
    table_frame, words, words_mut,
};
use crate::layout::{is_address, is_asid, present_at, Entry, Kind, FRAME_WORDS, HOST};

/// RMPUPDATE: the host gives a frame a new owner, address and type.
pub fn rmpupdate(
    table: &mut [u64],
    memory: &mut [u64],
    caller: u64,
    hpa: u64,
    gpa: u64,
    asid: u64,
    kind: u64,
) -> Answer {
    answer(|| {
        geometry(table, memory)?;
        require(is_asid(caller) && is_asid(asid), Refusal::Argument)?;
        require(is_address(hpa) && is_address(gpa), Refusal::Argument)?;
        let kind = Kind::from_number(kind).ok_or(Refusal::Argument)?;
        let owner_fits = match kind {
            Kind::Shared | Kind::Leaf => asid == HOST && gpa == 0,
            Kind::Private | Kind::Mergeable => asid != HOST,
        };
        require(owner_fits, Refusal::Argument)?;
        require(caller == HOST, Refusal::Caller)?;
        let frame = table_frame(table, hpa)?;
        let old = entry(table, frame)?;
        require(old.kind != Kind::Leaf, Refusal::Type)?;
        require(!old.fixed, Refusal::Fixed)?;

        set_entry(table, frame, Entry::new(asid, kind, gpa));
        if old.asid != asid {
            words_mut(memory, frame).fill(0);
        }
        let Entry { asid, gpa, .. } = old;
        Ok(match old.validated {
            true => Answer::Closed { asid, gpa },
            false => Answer::None,
        })
    })
}

/// PVALIDATE: a guest accepts a page at its address.
pub fn pvalidate(
    table: &mut [u64],
    memory: &[u64],
    caller: u64,
    gpa: u64,
    hpa: u64,
    kind: u64,
) -> Answer {
    answer(|| {
        geometry(table, memory)?;
        require(is_asid(caller), Refusal::Argument)?;
        require(is_address(gpa) && is_address(hpa), Refusal::Argument)?;
        let kind = validated_kind(kind)?;
        require(caller != HOST, Refusal::Caller)?;
        let frame = table_frame(table, hpa)?;
        let page = entry(table, frame)?;
        require(page.kind == kind, Refusal::Type)?;
        require(page.asid == caller, Refusal::Owner)?;
        require(!page.fixed, Refusal::Fixed)?;
        require(page.gpa == gpa, Refusal::Address)?;

        if page.validated {
            return Ok(Answer::Already);
        }
        let validated = Entry {
            validated: true,
            ..page
        };
        set_entry(table, frame, validated);
        Ok(Answer::Opened)
    })
}

/// The types that PVALIDATE takes.
#[inline]
pub(crate) fn validated_kind(number: u64) -> Result<Kind, Refusal> {
    match Kind::from_number(number) {
        Some(kind @ (Kind::Private | Kind::Mergeable)) => Ok(kind),
        _ => Err(Refusal::Argument),
    }
}

/// PFIX: the host fixes a validated mergeable page and gives it a leaf.
pub fn pfix(table: &mut [u64], memory: &mut [u64], caller: u64, hpa: u64, leaf: u64) -> Answer {
    answer(|| {
        geometry(table, memory)?;
        require(is_asid(caller), Refusal::Argument)?;
        require(is_address(hpa) && is_address(leaf), Refusal::Argument)?;
        require(caller == HOST, Refusal::Caller)?;
        let frame = table_frame(table, hpa)?;
        let leaf_frame = table_frame(table, leaf)?;
        let page = entry(table, frame)?;
        let leaf_entry = entry(table, leaf_frame)?;
        require(page.kind == Kind::Mergeable, Refusal::Type)?;
        require(leaf_entry.kind == Kind::Leaf, Refusal::Type)?;
        require(!page.fixed, Refusal::Fixed)?;
        require(page.validated, Refusal::NotValidated)?;
        require(!leaf_in_use(table, leaf), Refusal::LeafInUse)?;

        let places = words_mut(memory, leaf_frame);
        places.fill(0);
        places[page.asid as usize] = present_at(page.gpa);
        let fixed = Entry {
            fixed: true,
            gpa: leaf,
            ..page
        };
        set_entry(table, frame, fixed);
        Ok(Answer::Done)
    })
}

/// PMERGE: the host drops frame 2 for the equal, fixed frame 1.
pub fn pmerge(table: &mut [u64], memory: &mut [u64], caller: u64, hpa1: u64, hpa2: u64) -> Answer {
    answer(|| {
        geometry(table, memory)?;
        require(is_asid(caller), Refusal::Argument)?;
        require(is_address(hpa1) && is_address(hpa2), Refusal::Argument)?;
        require(caller == HOST, Refusal::Caller)?;
        let frame1 = table_frame(table, hpa1)?;
        let frame2 = table_frame(table, hpa2)?;
        let page1 = entry(table, frame1)?;
        let page2 = entry(table, frame2)?;
        require(page1.kind == Kind::Mergeable, Refusal::Type)?;
        require(page2.kind == Kind::Mergeable, Refusal::Type)?;
        require(page1.fixed, Refusal::NotFixed)?;
        require(!page2.fixed, Refusal::Fixed)?;
        require(page2.validated, Refusal::NotValidated)?;
        let place = place_in_leaf(table, memory, page1, page2.asid)?;
        require(place.is_none(), Refusal::PlaceTaken)?;
        let equal = words(memory, frame1) == words(memory, frame2);
        require(equal, Refusal::Contents)?;

        words_mut(memory, page1.leaf())[page2.asid as usize] = present_at(page2.gpa);
        words_mut(memory, frame2).fill(0);
        set_entry(table, frame2, Entry::SHARED);
        Ok(Answer::Done)
    })
}

/// PUNMERGE: the host gives a guest its own copy of frame 1 in frame 2.
pub fn punmerge(
    table: &mut [u64],
    memory: &mut [u64],
    caller: u64,
    hpa1: u64,
    hpa2: u64,
    asid: u64,
) -> Answer {
    answer(|| {
        geometry(table, memory)?;
        require(is_asid(caller), Refusal::Argument)?;
        require(asid != HOST && is_asid(asid), Refusal::Argument)?;
        require(is_address(hpa1) && is_address(hpa2), Refusal::Argument)?;
        require(caller == HOST, Refusal::Caller)?;
        let frame1 = table_frame(table, hpa1)?;
        let frame2 = table_frame(table, hpa2)?;
        let page1 = entry(table, frame1)?;
        let page2 = entry(table, frame2)?;
        require(page1.kind == Kind::Mergeable, Refusal::Type)?;
        require(page2.kind == Kind::Shared, Refusal::Type)?;
        require(page1.fixed, Refusal::NotFixed)?;
        let place = place_in_leaf(table, memory, page1, asid)?;
        let gpa = place.ok_or(Refusal::NoPlace)?;

        let start = frame1 * FRAME_WORDS;
        memory.copy_within(start..start + FRAME_WORDS, frame2 * FRAME_WORDS);
        let copy = Entry {
            validated: true,
            ..Entry::new(asid, Kind::Mergeable, gpa)
        };
        set_entry(table, frame2, copy);
        words_mut(memory, page1.leaf())[asid as usize] = 0;
        Ok(Answer::Done)
    })
}

/// PUNFIX: the host takes back the leaf of a page that at most one guest holds.
/// That guest becomes the owner; a page that none holds is taken back too.
pub fn punfix(table: &mut [u64], memory: &mut [u64], caller: u64, hpa: u64) -> Answer {
    answer(|| {
        geometry(table, memory)?;
        require(is_asid(caller) && is_address(hpa), Refusal::Argument)?;
        require(caller == HOST, Refusal::Caller)?;
        let frame = table_frame(table, hpa)?;
        let page = entry(table, frame)?;
        require(page.kind == Kind::Mergeable, Refusal::Type)?;
        require(page.fixed, Refusal::NotFixed)?;
        let leaf = leaf_of(table, page)?;
        let place = only_place(words(memory, leaf))?;

        let unfixed = match place {
            Some((asid, gpa)) => Entry {
                asid,
                fixed: false,
                gpa,
                ..page
            },
            None => {
                words_mut(memory, frame).fill(0);
                Entry::SHARED
            }
        };
        set_entry(table, frame, unfixed);
        set_entry(table, leaf, Entry::SHARED);
        words_mut(memory, leaf).fill(0);
        Ok(Answer::Unfixed { asid: unfixed.asid })
    })
}

#[cfg(test)]
mod tests {
    use super::*;

    /// The frames of the page that is unfixed and of its leaf.
    const PAGE: usize = 1;
    const LEAF: usize = 3;

    /// N = 8 and M = 10.
    #[derive(Clone, PartialEq)]
    struct Machine {
        table: [u64; 16],
        memory: [u64; 10 * FRAME_WORDS],
    }

    impl Machine {
        /// Guest 7's fixed page in frame 1 with these words in its leaf in frame
        /// 3, another fixed page in frame 5 with the leaf in frame 4, and pages
        /// of guests 9 and 8 in frames 2 and 6. The other words of the leaf are
        /// absent but not zero, and no other frame has a zero word.
        #[rustfmt::skip]
        fn with(words: &[(usize, u64)]) -> Self {
            let mut machine = Self {
                table: [
                    0, 0, 0xe0007, 0x3000, 0x60009, 0x60000, 0x30000, 0,
                    0x30000, 0, 0xe0007, 0x4000, 0x10008, 0x50000, 0, 0,
                ],
                memory: std::array::from_fn(|position| position as u64 + 1),
            };
            let leaf = words_mut(&mut machine.memory, LEAF);
            leaf.fill(0x50000);
            for &(index, word) in words {
                leaf[index] = word;
            }
            machine
        }

        fn set(&mut self, frame: usize, entry: [u64; 2]) {
            self.table[2 * frame..2 * frame + 2].copy_from_slice(&entry);
        }

        /// Makes the entry of a frame two zero words, and its words too.
        fn clear(&mut self, frame: usize) {
            self.set(frame, [0, 0]);
            self.memory[frame * FRAME_WORDS..(frame + 1) * FRAME_WORDS].fill(0);
        }

        fn punfix(&mut self) -> Answer {
            punfix(&mut self.table, &mut self.memory, 0, 0x1000)
        }

        /// The page becomes this guest's at this address and keeps its contents,
        /// the leaf is freed, and nothing else changes.
        fn moves_to(&mut self, asid: u64, gpa: u64) {
            let mut after = self.clone();
            after.set(PAGE, [0x60000 | asid, gpa]);
            after.clear(LEAF);
            assert_eq!(self.punfix(), Answer::Unfixed { asid });
            assert!(*self == after, "{asid:x} {gpa:x}");
        }

        /// Page and leaf are freed, and nothing else changes.
        fn frees_both(&mut self) {
            let mut after = self.clone();
            after.clear(PAGE);
            after.clear(LEAF);
            assert_eq!(self.punfix(), Answer::Unfixed { asid: 0 });
            assert!(*self == after);
        }

        /// The page's unfixing is refused with this number and changes nothing.
        fn refuses(&mut self, number: u8) {
            self.refuses_call(0, 0x1000, number, 0);
        }

        fn refuses_call(&mut self, caller: u64, hpa: u64, number: u8, reason: u8) {
            let before = self.clone();
            assert_eq!(
                punfix(&mut self.table, &mut self.memory, caller, hpa),
                Answer::Refused { number, reason },
                "{caller:x} {hpa:x} on {:x?}",
                self.table
            );
            assert!(*self == before);
        }
    }

    #[test]
    fn punfix_with_two_or_more_present_words_is_17() {
        for words in [
            &[(7, 0x50001), (9, 0x60001)][..], // the owner and another
            &[(8, 0x50001), (9, 0x60001)],     // two others
            &[(8, 0x50001), (9, 0x50001)],     // at one address
            &[(1, 1), (511, 1)],
            &[(7, 0x50001), (9, 0x60001), (11, 0x70001)],
            &[(1, 0x50001), (2, 0x60001), (3, 0x70001)],
        ] {
            Machine::with(words).refuses(17);
        }
        let all: Vec<_> = (0..FRAME_WORDS).map(|index| (index, 0x50001)).collect();
        Machine::with(&all).refuses(17);
    }

    #[test]
    fn punfix_counts_index_0_and_misshapen_words_before_12() {
        for words in [
            &[(0, 0x50001), (7, 0x50001)][..],
            &[(0, 0x50001), (9, 0x60003)],
            &[(0, 0x50003), (9, 0x60001)],
            &[(7, 0x50003), (9, 0x60001)],
            &[(7, 0x50001), (9, 0x60003)],
            &[(7, 0x50003), (9, 0x60003)],
            &[(0, 1), (7, u64::MAX), (511, 0x10000000000001)],
        ] {
            Machine::with(words).refuses(17);
        }
    }

    #[test]
    fn punfix_makes_the_only_guest_the_owner() {
        // 7 is the owner already; the others are not.
        for asid in [7, 1, 6, 8, 9, 255, 256, 510, 511] {
            for gpa in [0x50000, 0, 0x1000, (1 << 52) - 0x1000] {
                Machine::with(&[(asid as usize, gpa | 1)]).moves_to(asid, gpa);
            }
        }
    }

    #[test]
    fn punfix_with_one_present_word_at_index_0_is_12() {
        for word in [1, 0x50001, 0x50003, u64::MAX] {
            Machine::with(&[(0, word)]).refuses(12);
        }
    }

    #[test]
    fn punfix_with_one_misshapen_word_is_12() {
        for word in [3, 0x50003, 0x50801, 0x10000000000001, u64::MAX] {
            for asid in [7, 1, 9, 511] {
                Machine::with(&[(asid, word)]).refuses(12);
            }
        }
    }

    #[test]
    fn punfix_without_a_present_word_frees_page_and_leaf() {
        Machine::with(&[]).frees_both();
        Machine::with(&[(0, 0), (7, 0), (9, !1)]).frees_both();
    }

    /// Words of a leaf by which the page would be freed, kept, moved, and
    /// refused with 17.
    const ANY_WORDS: [&[(usize, u64)]; 4] = [
        &[],
        &[(7, 0x50001)],
        &[(9, 0x60001)],
        &[(7, 0x50001), (9, 0x60001)],
    ];

    #[test]
    fn punfix_with_a_leaf_that_is_none_is_12_whatever_its_words() {
        for words in ANY_WORDS {
            for no_leaf in [
                [0, 0],
                [0x10007, 0x50000],
                [0x60007, 0x50000],
                [0xe0007, 0x4000],
                [0x30000, 0x1000], // not well formed, as are the next
                [0x30001, 0],
                [0x100000, 0],
            ] {
                let mut machine = Machine::with(words);
                machine.set(LEAF, no_leaf);
                machine.refuses(12);
            }
            // The page as its own leaf.
            let mut machine = Machine::with(words);
            machine.set(PAGE, [0xe0007, 0x1000]);
            machine.refuses(12);
        }
    }

    #[test]
    fn punfix_checks_the_leaf_last() {
        for words in ANY_WORDS {
            let mut machine = Machine::with(words);
            machine.set(LEAF, [0, 0]);
            for (entry, number, reason) in [
                ([0x60007, 0x3000], 11, 0),
                ([0x20007, 0x3000], 11, 0),
                ([0x50007, 0x3000], 6, 0),
                ([0x30000, 0], 6, 0),
                ([0, 0], 6, 0),
                ([0xa0007, 0x3000], 5, 3),
            ] {
                machine.set(PAGE, entry);
                machine.refuses_call(0, 0x1000, number, reason);
            }
            // The page's entry is bad from here on.
            for (caller, hpa, number) in [
                (0, 0x8000, 4),
                (7, 0x1000, 3),  // before 5
                (7, 0x8000, 3),  // before 4
                (0, 0x1001, 2),  // before 5
                (7, 1 << 52, 2), // before 3 and 4
                (512, 0x8000, 2),
            ] {
                machine.refuses_call(caller, hpa, number, 0);
            }
            let [number, reason] = [1, 0];
            let answer = punfix(&mut machine.table[..15], &mut machine.memory, 512, 1);
            assert_eq!(answer, Answer::Refused { number, reason });
        }
    }
}
