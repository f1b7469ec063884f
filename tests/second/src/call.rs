//! The calls as values, their answers, and the refusal numbers (document 01,
//! "Refusal numbers" and "The calls").

use std::fmt;

use crate::layout::Reason;
use crate::walk::{self, Mapping, Reached, Virtual};
use crate::{access, pages, rules};

/// The refusals, in the order of their numbers.
#[derive(Clone, Copy, PartialEq, Eq, Debug)]
pub enum Refusal {
    Geometry,
    Argument,
    Caller,
    Outside,
    BadEntry(Reason),
    Type,
    Owner,
    Address,
    NotValidated,
    Fixed,
    NotFixed,
    BrokenLeaf,
    NoPlace,
    PlaceTaken,
    LeafInUse,
    Contents,
    StillShared,
    /// An entry of a page table that is absent (document 02, Q-4).
    AbsentEntry,
    /// An entry of a page table for a large page.
    LargePage,
}

impl Refusal {
    pub fn number(self) -> u8 {
        match self {
            Self::Geometry => 1,
            Self::Argument => 2,
            Self::Caller => 3,
            Self::Outside => 4,
            Self::BadEntry(_) => 5,
            Self::Type => 6,
            Self::Owner => 7,
            Self::Address => 8,
            Self::NotValidated => 9,
            Self::Fixed => 10,
            Self::NotFixed => 11,
            Self::BrokenLeaf => 12,
            Self::NoPlace => 13,
            Self::PlaceTaken => 14,
            Self::LeafInUse => 15,
            Self::Contents => 16,
            Self::StillShared => 17,
            Self::AbsentEntry => 18,
            Self::LargePage => 19,
        }
    }

    /// The number of the rule that a bad entry breaks; zero for every other
    /// refusal.
    pub fn reason(self) -> u8 {
        match self {
            Self::BadEntry(reason) => reason as u8,
            _ => 0,
        }
    }
}

/// What a call answers.
#[derive(Clone, Copy, PartialEq, Eq, Debug)]
#[rustfmt::skip]
pub enum Answer {
    /// The reason is a `Reason` with refusal 5, else zero.
    Refused { number: u8, reason: u8 },
    Done,
    None,
    Closed { asid: u64, gpa: u64 },
    Opened,
    Already,
    /// The new owner of the page, `HOST` if it has none (document 02, Q-3).
    Unfixed { asid: u64 },
    Word(u64),
    Count(u64),
}

impl From<Refusal> for Answer {
    fn from(refusal: Refusal) -> Self {
        Self::Refused {
            number: refusal.number(),
            reason: refusal.reason(),
        }
    }
}

/// The answer as the script program prints it after the letter.
impl fmt::Display for Answer {
    fn fmt(&self, f: &mut fmt::Formatter<'_>) -> fmt::Result {
        match self {
            Self::Refused { number, .. } => write!(f, "no {number}"),
            Self::Done => write!(f, "ok"),
            Self::None => write!(f, "ok none"),
            Self::Closed { asid, gpa } => write!(f, "ok closed {asid:x} {gpa:x}"),
            Self::Opened => write!(f, "ok opened"),
            Self::Already => write!(f, "ok already"),
            Self::Unfixed { asid } => write!(f, "ok {asid:x}"),
            Self::Word(number) | Self::Count(number) => write!(f, "ok {number:x}"),
        }
    }
}

/// One of the nine calls with its arguments.
#[derive(Clone, Copy, PartialEq, Eq, Debug)]
#[rustfmt::skip]
pub enum Call {
    Rmpupdate { caller: u64, hpa: u64, gpa: u64, asid: u64, kind: u64 },
    Pvalidate { caller: u64, gpa: u64, hpa: u64, kind: u64 },
    Pfix { caller: u64, hpa: u64, leaf: u64 },
    Pmerge { caller: u64, hpa1: u64, hpa2: u64 },
    Punmerge { caller: u64, hpa1: u64, hpa2: u64, asid: u64 },
    Punfix { caller: u64, hpa: u64 },
    Read { caller: u64, gpa: u64, hpa: u64, gtype: u64, ntype: u64, index: u64 },
    Write { caller: u64, gpa: u64, hpa: u64, gtype: u64, ntype: u64, index: u64, value: u64 },
    Census { asid: u64 },
}

impl Call {
    /// Makes the call on this table and memory.
    #[rustfmt::skip]
    pub fn make(&self, table: &mut [u64], memory: &mut [u64]) -> Answer {
        match *self {
            Self::Rmpupdate { caller, hpa, gpa, asid, kind } =>
                rules::rmpupdate(table, memory, caller, hpa, gpa, asid, kind),
            Self::Pvalidate { caller, gpa, hpa, kind } =>
                rules::pvalidate(table, memory, caller, gpa, hpa, kind),
            Self::Pfix { caller, hpa, leaf } =>
                rules::pfix(table, memory, caller, hpa, leaf),
            Self::Pmerge { caller, hpa1, hpa2 } =>
                rules::pmerge(table, memory, caller, hpa1, hpa2),
            Self::Punmerge { caller, hpa1, hpa2, asid } =>
                rules::punmerge(table, memory, caller, hpa1, hpa2, asid),
            Self::Punfix { caller, hpa } =>
                rules::punfix(table, memory, caller, hpa),
            Self::Read { caller, gpa, hpa, gtype, ntype, index } =>
                access::read(table, memory, caller, gpa, hpa, gtype, ntype, index),
            Self::Write { caller, gpa, hpa, gtype, ntype, index, value } =>
                access::write(table, memory, caller, gpa, hpa, gtype, ntype, index, value),
            Self::Census { asid } =>
                access::census(table, memory, asid),
        }
    }

    /// The letter of the call in a script.
    pub fn letter(&self) -> char {
        match self {
            Self::Rmpupdate { .. } => 'U',
            Self::Pvalidate { .. } => 'V',
            Self::Pfix { .. } => 'F',
            Self::Pmerge { .. } => 'M',
            Self::Punmerge { .. } => 'D',
            Self::Punfix { .. } => 'X',
            Self::Read { .. } => 'R',
            Self::Write { .. } => 'W',
            Self::Census { .. } => 'C',
        }
    }
}

/// The call as a line of a script, without its line feed.
impl fmt::Display for Call {
    #[rustfmt::skip]
    fn fmt(&self, f: &mut fmt::Formatter<'_>) -> fmt::Result {
        write!(f, "{}", self.letter())?;
        match self {
            Self::Rmpupdate { caller, hpa, gpa, asid, kind } =>
                write!(f, " {caller:x} {hpa:x} {gpa:x} {asid:x} {kind:x}"),
            Self::Pvalidate { caller, gpa, hpa, kind } =>
                write!(f, " {caller:x} {gpa:x} {hpa:x} {kind:x}"),
            Self::Pfix { caller, hpa, leaf } =>
                write!(f, " {caller:x} {hpa:x} {leaf:x}"),
            Self::Pmerge { caller, hpa1, hpa2 } =>
                write!(f, " {caller:x} {hpa1:x} {hpa2:x}"),
            Self::Punmerge { caller, hpa1, hpa2, asid } =>
                write!(f, " {caller:x} {hpa1:x} {hpa2:x} {asid:x}"),
            Self::Punfix { caller, hpa } =>
                write!(f, " {caller:x} {hpa:x}"),
            Self::Read { caller, gpa, hpa, gtype, ntype, index } =>
                write!(f, " {caller:x} {gpa:x} {hpa:x} {gtype:x} {ntype:x} {index:x}"),
            Self::Write { caller, gpa, hpa, gtype, ntype, index, value } =>
                write!(f, " {caller:x} {gpa:x} {hpa:x} {gtype:x} {ntype:x} {index:x} {value:x}"),
            Self::Census { asid } =>
                write!(f, " {asid:x}"),
        }
    }
}

/// A call that a list of demand 3 may hold: one of the nine, one of the three
/// on whole pages (document 02, Q-1), or one of the four by virtual address
///
#[derive(Clone, PartialEq, Eq, Debug)]
#[rustfmt::skip]
pub enum Request {
    Call(Call),
    PageRead { caller: u64, gpa: u64, hpa: u64 },
    PageWrite { caller: u64, gpa: u64, hpa: u64, words: Vec<u64> },
    PageCheck { caller: u64, gpa: u64, hpa: u64 },
    Walk(Virtual),
    PvalidateVa { at: Virtual, kind: u64 },
    ReadVa { at: Virtual, index: u64 },
    WriteVa { at: Virtual, index: u64, value: u64 },
}

/// What a request is answered.
#[derive(Clone, Copy, PartialEq, Eq, Debug)]
pub enum Reply<'m> {
    Answer(Answer),
    /// What `page_read` handed back.
    Page(&'m [u64]),
    /// What `walk` yielded.
    Mapping(Result<Mapping, Refusal>),
    /// What another call by virtual address answered.
    Reached(Reached),
}

impl Request {
    /// The virtual address that it names, if it names one.
    pub fn virtual_address(&self) -> Option<Virtual> {
        match *self {
            Self::Walk(at)
            | Self::PvalidateVa { at, .. }
            | Self::ReadVa { at, .. }
            | Self::WriteVa { at, .. } => Some(at),
            _ => None,
        }
    }

    /// Makes the request on this table and memory.
    #[rustfmt::skip]
    pub fn make<'m>(&self, table: &mut [u64], memory: &'m mut [u64]) -> Reply<'m> {
        match *self {
            Self::Call(call) =>
                Reply::Answer(call.make(table, memory)),
            Self::PageRead { caller, gpa, hpa } =>
                Reply::Page(pages::page_read(table, memory, caller, gpa, hpa)),
            Self::PageWrite { caller, gpa, hpa, ref words } =>
                Reply::Answer(pages::page_write(table, memory, caller, gpa, hpa, words)),
            Self::PageCheck { caller, gpa, hpa } =>
                Reply::Answer(pages::page_check(table, memory, caller, gpa, hpa)),
            Self::Walk(at) => {
                let Virtual { caller, root, root_type, host_root, va } = at;
                Reply::Mapping(walk::walk(
                    table, memory, caller, root, root_type, host_root, va))
            }
            Self::PvalidateVa { at, kind } => {
                let Virtual { caller, root, root_type, host_root, va } = at;
                Reply::Reached(walk::pvalidate_va(
                    table, memory, caller, root, root_type, host_root, va, kind))
            }
            Self::ReadVa { at, index } => {
                let Virtual { caller, root, root_type, host_root, va } = at;
                Reply::Reached(walk::read_va(
                    table, memory, caller, root, root_type, host_root, va, index))
            }
            Self::WriteVa { at, index, value } => {
                let Virtual { caller, root, root_type, host_root, va } = at;
                Reply::Reached(walk::write_va(
                    table, memory, caller, root, root_type, host_root, va, index, value))
            }
        }
    }
}

#[cfg(test)]
mod tests {
    use super::*;
    use crate::layout::FRAME_WORDS;
    use crate::script::parse;

    /// N = 8 and M = 10.
    #[derive(Clone, PartialEq)]
    struct Machine {
        table: [u64; 16],
        memory: [u64; 10 * FRAME_WORDS],
    }

    impl Machine {
        /// Every entry is good: guest 7's fixed page in frame 1 with the leaf
        /// in frame 3, validated pages of guests 9 and 7 in frames 2 and 5, a
        /// leaf without a page in frame 6, and a page not validated in frame 7.
        #[rustfmt::skip]
        fn new() -> Self {
            let mut machine = Self {
                table: [
                    0, 0, 0xe0007, 0x3000, 0x60009, 0x60000, 0x30000, 0,
                    0, 0, 0x60007, 0x51000, 0x30000, 0, 0x20007, 0x52000,
                ],
                memory: [0; 10 * FRAME_WORDS],
            };
            machine.memory[FRAME_WORDS] = 1; // frame 1 is unlike frame 2
            machine.memory[3 * FRAME_WORDS + 7] = 0x50001;
            machine.memory[3 * FRAME_WORDS + 8] = 0x50003; // misshapen
            machine
        }

        /// With these entries in place of those of their frames.
        fn with<const K: usize>(entries: [(usize, [u64; 2]); K]) -> Self {
            let mut machine = Self::new();
            for (frame, words) in entries {
                machine.table[2 * frame..2 * frame + 2].copy_from_slice(&words);
            }
            machine
        }

        fn make(&mut self, line: &str) -> Answer {
            let call = parse(line.as_bytes()).unwrap();
            call.make(&mut self.table, &mut self.memory)
        }

        /// The call is refused with this number and reason, and changes nothing.
        fn refuses(&mut self, line: &str, number: u8, reason: u8) {
            let before = self.clone();
            assert_eq!(
                self.make(line),
                Answer::Refused { number, reason },
                "{line} on {:x?}",
                self.table
            );
            assert!(*self == before, "{line}");
        }
    }

    /// For each reason an entry that breaks its rule alone.
    const BAD: [([u64; 2], u8); 4] = [
        ([0x100000, 0], 1),
        ([0x10200, 0x1000], 2),
        ([0xa0007, 0x3000], 3),
        ([0xe0007, 0x8000], 4),
    ];

    /// Every two of them that differ, in both orders.
    fn two_bad() -> impl Iterator<Item = ([u64; 2], u8, [u64; 2], u8)> {
        BAD.into_iter().flat_map(|(first, reason1)| {
            BAD.into_iter()
                .filter(move |&(second, _)| second != first)
                .map(move |(second, reason2)| (first, reason1, second, reason2))
        })
    }

    #[test]
    fn each_call_tells_the_reason_of_a_bad_entry() {
        for (bad, reason) in BAD {
            for (line, frame) in [
                ("U 0 1000 50000 7 2", 1),
                ("U 0 3000 0 0 0", 3),
                ("V 7 50000 1000 2", 1),
                ("V 9 60000 2000 1", 2),
                ("F 0 5000 6000", 5),
                ("F 0 5000 6000", 6),
                ("M 0 1000 2000", 1),
                ("M 0 1000 2000", 2),
                ("D 0 1000 4000 9", 1),
                ("D 0 1000 4000 9", 4),
                ("X 0 1000", 1),
                ("R 7 50000 1000 2 2 3", 1),
                ("R 0 0 4000 0 0 3", 4),
                ("W 7 51000 5000 2 2 3 2a", 5),
                ("W 9 0 4000 0 0 3 2a", 4),
                ("C 7", 0),
                ("C 7", 1),
                ("C 1ff", 7),
            ] {
                Machine::with([(frame, bad)]).refuses(line, 5, reason);
            }
        }
    }

    #[test]
    fn of_two_bad_frames_the_first_named_gives_the_reason() {
        for (low, reason1, high, reason2) in two_bad() {
            let mut machine = Machine::with([(1, low), (2, high)]);
            for (line, reason) in [
                ("F 0 1000 2000", reason1),
                ("F 0 2000 1000", reason2),
                ("M 0 1000 2000", reason1),
                ("M 0 2000 1000", reason2),
                ("D 0 1000 2000 9", reason1),
                ("D 0 2000 1000 9", reason2),
            ] {
                machine.refuses(line, 5, reason);
            }
        }
    }

    #[test]
    fn a_bad_second_frame_comes_before_6_of_the_first() {
        for (bad, reason) in BAD {
            let mut machine = Machine::with([(2, bad)]);
            for line in ["F 0 0 2000", "M 0 0 2000", "D 0 0 2000 9"] {
                machine.refuses(line, 5, reason);
            }
        }
    }

    #[test]
    fn of_two_bad_frames_the_census_meets_the_lower_first() {
        for (low, reason, high, _) in two_bad() {
            Machine::with([(2, low), (5, high)]).refuses("C 7", 5, reason);
            Machine::with([(0, low), (7, high)]).refuses("C 9", 5, reason);
        }
    }

    #[test]
    fn a_leaf_that_is_not_named_is_12_without_a_reason() {
        for (bad, reason) in BAD {
            let mut machine = Machine::with([(3, bad)]);
            for line in [
                "M 0 1000 2000",
                "D 0 1000 4000 9",
                "X 0 1000",
                "R 7 50000 1000 2 2 3",
                "C 7",
            ] {
                machine.refuses(line, 12, 0);
            }
            machine.refuses("W 7 50000 1000 2 2 3 2a", 10, 0);
            machine.refuses("F 0 5000 3000", 5, reason); // here it is named
        }
    }

    #[test]
    fn the_census_meets_a_bad_leaf_by_its_page_or_by_its_frame() {
        for (bad, reason) in BAD {
            // The fixed page in frame 1 comes before the leaf in frame 3, and
            // before another bad frame.
            Machine::with([(3, bad)]).refuses("C 9", 12, 0);
            Machine::with([(3, [0, 0]), (2, bad)]).refuses("C 9", 12, 0);
            // The leaf in frame 0 comes before the fixed page in frame 1.
            Machine::with([(0, bad), (1, [0xe0007, 0])]).refuses("C 9", 5, reason);
        }
    }

    #[test]
    fn a_bad_entry_uses_no_leaf() {
        let mut machine = Machine::with([(4, [0xa0007, 0x6000])]);
        assert_eq!(machine.make("F 0 5000 6000"), Answer::Done);
        let mut machine = Machine::with([(4, [0xe0007, 0x6000])]);
        machine.refuses("F 0 5000 6000", 15, 0);
    }

    #[test]
    fn every_other_refusal_has_no_reason() {
        let mut machine = Machine::new();
        for (line, number) in [
            ("C 0", 2),
            ("X 7 1000", 3),
            ("X 0 8000", 4),
            ("X 0 0", 6),
            ("V 9 51000 5000 2", 7),
            ("V 7 50000 5000 2", 8),
            ("F 0 7000 6000", 9),
            ("U 0 1000 50000 7 2", 10),
            ("X 0 5000", 11),
            ("D 0 1000 4000 8", 12),
            ("D 0 1000 4000 9", 13),
            ("M 0 1000 5000", 14),
            ("F 0 5000 3000", 15),
            ("M 0 1000 2000", 16),
            ("X 0 1000", 17),
        ] {
            machine.refuses(line, number, 0);
        }
        let Machine { table, memory } = &mut machine;
        let answer = Call::Census { asid: 7 }.make(&mut table[..15], memory);
        let [number, reason] = [1, 0];
        assert_eq!(answer, Answer::Refused { number, reason });
    }

    #[test]
    fn checks_before_5_have_no_reason_on_a_bad_entry() {
        for (bad, reason) in BAD {
            let mut machine = Machine::with([(1, bad)]);
            machine.refuses("R 7 50000 1000 2 2 200", 2, 0);
            machine.refuses("X 7 1000", 3, 0);
            machine.refuses("F 0 1000 8000", 4, 0);
            machine.refuses("R 7 50000 1000 1 2 3", 6, 0);
            machine.refuses("F 0 1000 0", 5, reason); // before 6 of the leaf
        }
    }
}
