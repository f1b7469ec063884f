//! Whole SHARED pages (document 02, Q-1). The checks are those of a SHARED
//! READ or WRITE of word 0.

use crate::access::Access;
use crate::call::{Answer, Refusal};
use crate::checks::geometry;
use crate::layout::FRAME_WORDS;

/// The 512 words of a SHARED page, where they lie in memory; none if refused.
pub fn page_read<'m>(
    table: &[u64],
    memory: &'m [u64],
    caller: u64,
    gpa: u64,
    hpa: u64,
) -> &'m [u64] {
    match Access::shared_page(caller, gpa, hpa, false).check(table, memory) {
        Ok(start) => &memory[start..start + FRAME_WORDS],
        Err(_) => &[],
    }
}

/// Writes 512 words to a SHARED page.
pub fn page_write(
    table: &[u64],
    memory: &mut [u64],
    caller: u64,
    gpa: u64,
    hpa: u64,
    words: &[u64],
) -> Answer {
    if words.len() != FRAME_WORDS {
        // Only 1 comes before 2, whatever else is wrong.
        let lengths = geometry(table, memory).err();
        return lengths.unwrap_or(Refusal::Argument).into();
    }
    match Access::shared_page(caller, gpa, hpa, true).check(table, memory) {
        Ok(start) => {
            memory[start..start + FRAME_WORDS].copy_from_slice(words);
            Answer::Done
        }
        Err(refusal) => refusal.into(),
    }
}

/// Whether `page_read` hands a page back, and the refusal if it does not.
pub fn page_check(table: &[u64], memory: &[u64], caller: u64, gpa: u64, hpa: u64) -> Answer {
    match Access::shared_page(caller, gpa, hpa, false).check(table, memory) {
        Ok(_) => Answer::Done,
        Err(refusal) => refusal.into(),
    }
}

#[cfg(test)]
mod tests {
    use super::*;
    use crate::script::parse;
    use crate::{read, write};

    /// N = 8 and M = 10; every word of memory differs from every other.
    #[derive(Clone)]
    struct Machine {
        table: Vec<u64>,
        memory: Vec<u64>,
    }

    /// A run of this many words, none of which is in a machine's memory.
    fn run(length: u64) -> Vec<u64> {
        (0..length).map(|index| !index).collect()
    }

    /// A refusal that carries no reason.
    fn refused(number: u8) -> Answer {
        Answer::Refused { number, reason: 0 }
    }

    impl Machine {
        fn new() -> Self {
            Self {
                table: vec![0; 16],
                memory: (1..=10 * FRAME_WORDS as u64).collect(),
            }
        }

        fn after(lines: &[&str]) -> Self {
            let mut machine = Self::new();
            for line in lines {
                let call = parse(line.as_bytes()).unwrap();
                let answer = call.make(&mut machine.table, &mut machine.memory);
                assert!(
                    !matches!(answer, Answer::Refused { .. }),
                    "{line}: {answer:?}"
                );
            }
            machine
        }

        fn read(&self, [caller, gpa, hpa]: [u64; 3]) -> &[u64] {
            page_read(&self.table, &self.memory, caller, gpa, hpa)
        }

        fn check(&self, [caller, gpa, hpa]: [u64; 3]) -> Answer {
            page_check(&self.table, &self.memory, caller, gpa, hpa)
        }

        fn write(&mut self, [caller, gpa, hpa]: [u64; 3], words: &[u64]) -> Answer {
            page_write(&self.table, &mut self.memory, caller, gpa, hpa, words)
        }

        fn read_word(&self, [caller, gpa, hpa]: [u64; 3], index: u64) -> Answer {
            read(&self.table, &self.memory, caller, gpa, hpa, 0, 0, index)
        }

        #[rustfmt::skip]
        fn write_word(&mut self, [caller, gpa, hpa]: [u64; 3], index: u64, word: u64) -> Answer {
            write(&self.table, &mut self.memory, caller, gpa, hpa, 0, 0, index, word)
        }

        /// A write of `words` is refused like this and changes nothing.
        fn refuses_run(&mut self, arguments: [u64; 3], words: &[u64], refused: Answer) {
            let before = self.memory.clone();
            let answer = self.write(arguments, words);
            let length = words.len();
            assert_eq!(answer, refused, "{arguments:x?} run of {length}");
            assert!(self.memory == before);
        }

        /// All three calls are refused with this number and no reason, as READ
        /// and WRITE are.
        fn refuses(&mut self, arguments: [u64; 3], number: u8) {
            self.refuses_like(arguments, refused(number));
        }

        fn refuses_like(&mut self, arguments: [u64; 3], refused: Answer) {
            assert_eq!(self.check(arguments), refused, "{arguments:x?}");
            assert_eq!(self.read(arguments), []);
            self.refuses_run(arguments, &run(512), refused);
            assert_eq!(self.read_word(arguments, 0), refused);
            assert_eq!(self.write_word(arguments, 0, 1), refused);
        }

        /// All three calls are accepted, and touch this frame alone.
        fn accepts(&mut self, arguments: [u64; 3], frame: usize) {
            let start = frame * FRAME_WORDS;
            let part = start..start + FRAME_WORDS;
            assert_eq!(self.check(arguments), Answer::Done, "{arguments:x?}");
            let page = self.read(arguments);
            assert_eq!(page, &self.memory[part.clone()]);
            assert_eq!(page.as_ptr(), self.memory[start..].as_ptr()); // no copy
            let mut expected = self.memory.clone();
            expected[part].copy_from_slice(&run(512));
            assert_eq!(self.write(arguments, &run(512)), Answer::Done);
            assert!(self.memory == expected);
            assert_eq!(self.read(arguments), run(512));
        }
    }

    /// A private and a mergeable page of guest 7 in frames 1 and 2, its fixed
    /// page in frame 3 with the leaf in frame 4, and a page not validated in 5.
    const PAGES: [&str; 9] = [
        "U 0 1000 50000 7 1",
        "V 7 50000 1000 1",
        "U 0 2000 51000 7 2",
        "V 7 51000 2000 2",
        "U 0 3000 52000 7 2",
        "V 7 52000 3000 2",
        "U 0 4000 0 0 3",
        "F 0 3000 4000",
        "U 0 5000 53000 7 1",
    ];

    #[test]
    fn what_a_page_holds() {
        let mut machine = Machine::new();
        let page: Vec<u64> = (0x201..=0x400).collect();
        assert_eq!(machine.read([0, 0, 0x1000]), page);
        let words = run(512);
        assert_eq!(machine.write([0, 0, 0x1000], &words), Answer::Done);
        assert_eq!(machine.memory[0x1ff..0x202], [0x200, !0, !1]);
        assert_eq!(machine.memory[0x3fe..0x401], [!0x1fe, !0x1ff, 0x401]);
        assert_eq!(machine.read([0, 0, 0x1000]), words);
        assert_eq!(machine.read([0, 0, 0])[..2], [1, 2]);
        assert_eq!(machine.read([0, 0, 0x9000])[511], 0x1400);
    }

    #[test]
    fn host_and_guests_may_call() {
        for caller in [0, 1, 7, 511] {
            for gpa in [0, 0x50000, (1 << 52) - 0x1000] {
                for frame in [0, 6, 7] {
                    Machine::after(&PAGES).accepts([caller, gpa, frame << 12], frame as usize);
                }
            }
        }
    }

    #[test]
    fn frames_above_the_table_are_shared() {
        for caller in [0, 7] {
            Machine::after(&PAGES).accepts([caller, 0x50000, 0x8000], 8);
            Machine::after(&PAGES).accepts([caller, 0x50000, 0x9000], 9);
        }
    }

    #[test]
    fn wrong_lengths_are_1() {
        let words = |frames: usize| frames * FRAME_WORDS;
        for (table, memory) in [
            (0, words(10)),
            (15, words(10)),
            (17, words(10)),
            (22, words(10)), // N = 11
            (2 * 4097, words(8192)),
            (16, 0),
            (16, words(7)),
            (16, words(10) - 1),
            (16, words(10) + 1),
            (16, words(8193)),
        ] {
            let mut machine = Machine {
                table: vec![0; table],
                memory: vec![0; memory],
            };
            machine.refuses([0, 0, 0], 1);
            machine.refuses([512, 1, 1 << 52], 1); // 1 before 2
            machine.refuses_run([0, 0, 0], &run(511), refused(1));
        }
    }

    #[test]
    fn the_smallest_and_largest_sizes() {
        for (n, m) in [(1, 1), (8, 8), (1, 8192), (4096, 8192)] {
            let mut machine = Machine {
                table: vec![0; 2 * n],
                memory: vec![0; m * FRAME_WORDS],
            };
            let last = (m as u64 - 1) << 12;
            machine.accepts([0, 0, last], m - 1);
            machine.refuses([0, 0, last + 0x1000], 4);
        }
    }

    const BAD_ARGUMENTS: [[u64; 3]; 9] = [
        [512, 0x50000, 0x6000],
        [u64::MAX, 0x50000, 0x6000],
        [7, 0x50001, 0x6000],
        [7, 0x50800, 0x6000],
        [7, 1 << 52, 0x6000],
        [7, 0x50000, 0x6001],
        [7, 0x50000, 0x6008],
        [7, 0x50000, 1 << 52],
        [7, 0x50000, u64::MAX],
    ];

    #[test]
    fn bad_arguments_are_2() {
        let mut machine = Machine::after(&PAGES);
        machine.table[13] = 1; // the entry of frame 6 is bad: 2 before 5
        for arguments in BAD_ARGUMENTS {
            machine.refuses(arguments, 2);
        }
        for [caller, gpa, _] in &BAD_ARGUMENTS[..5] {
            machine.refuses([*caller, *gpa, 0xa000], 2); // 2 before 4
        }
    }

    #[test]
    fn a_run_that_is_no_page_is_2() {
        let mut machine = Machine::after(&PAGES);
        machine.table[13] = 1;
        for length in [0, 1, 511, 513, 1024] {
            // With a good run: done (twice), 4, 5, 6 (twice).
            for hpa in [0, 0x9000, 0xa000, 0x6000, 0x1000, 0x4000] {
                machine.refuses_run([0, 0, hpa], &run(length), refused(2));
                machine.refuses_run([7, 0x50000, hpa], &run(length), refused(2));
            }
            machine.refuses_run(BAD_ARGUMENTS[0], &run(length), refused(2));
        }
    }

    #[test]
    fn frames_that_memory_lacks_are_4() {
        let mut machine = Machine::after(&PAGES);
        for hpa in [0xa000, 0xb000, 0x1000000, 1 << 51, (1 << 52) - 0x1000] {
            machine.refuses([0, 0, hpa], 4);
            machine.refuses([7, 0x50000, hpa], 4);
        }
    }

    #[test]
    fn entries_not_well_formed_are_5_with_their_reason() {
        for (bad, reason) in [
            ([0xe0007, 0x8000], 4),
            ([0xa0007, 0x3000], 3),
            ([0x10000, 0x1000], 2),
            ([0x10200, 0x1000], 2),
            ([0x30000, 0x1000], 4),
            ([0x100000, 0], 1),
            ([0, 0x1000], 4),
            ([1, 0], 2),
            ([0x40000, 0], 3),
            ([0x80000, 0], 3),
        ] {
            let refused = Answer::Refused { number: 5, reason };
            let mut machine = Machine::new();
            machine.table[12..14].copy_from_slice(&bad);
            machine.refuses_like([0, 0, 0x6000], refused);
            machine.refuses_like([7, 0x1000, 0x6000], refused);
            // Other frames are none of the call's business.
            machine.accepts([0, 0, 0x5000], 5);
            machine.accepts([0, 0, 0x7000], 7);
            machine.accepts([0, 0, 0x8000], 8);
        }
    }

    #[test]
    fn pages_of_guests_and_leaves_are_6() {
        let mut machine = Machine::after(&PAGES);
        for (gpa, hpa) in [
            (0x50000, 0x1000),
            (0x51000, 0x2000),
            (0x52000, 0x3000),
            (0, 0x4000),
            (0x53000, 0x5000),
        ] {
            // The host, the owner and another guest.
            for caller in [0, 7, 9] {
                machine.refuses([caller, gpa, hpa], 6);
            }
        }
        // A fixed page is 6 as well when its leaf is broken.
        machine.table[8..10].copy_from_slice(&[0, 0]);
        machine.refuses([7, 0x52000, 0x3000], 6);
        machine.accepts([7, 0x52000, 0x4000], 4);
    }

    #[test]
    fn a_page_is_its_512_words() {
        let mut paged = Machine::after(&PAGES);
        let mut worded = paged.clone();
        for frame in 0..=10 {
            for caller in [0, 7, 512] {
                let arguments = [caller, 0x50000, frame << 12];
                let page = paged.read(arguments);
                for index in 0..512 {
                    let expected = match page.get(index as usize) {
                        Some(&word) => Answer::Word(word),
                        None => paged.check(arguments),
                    };
                    assert_eq!(paged.read_word(arguments, index), expected);
                }
                let words: Vec<u64> = (0..512).map(|index| frame << 32 | caller | index).collect();
                let answer = paged.write(arguments, &words);
                for (index, &word) in (0..).zip(&words) {
                    assert_eq!(worded.write_word(arguments, index, word), answer);
                }
                assert!(paged.memory == worded.memory);
            }
        }
    }
}
