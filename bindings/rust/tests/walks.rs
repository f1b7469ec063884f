//! Every refusal that the calls by virtual address can meet, and what they touch where they are accepted. The words of the page tables and
//! the numbers are worked out by hand.

use skorbilek::{pvalidate_va, read_va, walk, write_va};
use skorbilek::{Answer, Mapping, Reached, Reason, Refusal, FRAME_WORDS, MERGEABLE, PRIVATE};

/// Caller, root, root type, host's root and virtual address.
type Arguments = [u64; 5];

/// Guest 7's, with its root at 0x51000, PRIVATE, and the host's in frame 0.
fn to(va: u64) -> Arguments {
    [7, 0x51000, 1, 0, va]
}

/// N = 8 and M = 10.
#[derive(Clone, PartialEq)]
struct Machine {
    table: Vec<u64>,
    memory: Vec<u64>,
}

impl Machine {
    #[rustfmt::skip]
    fn new() -> Self {
        let table = vec![
            0, 0,             // the host's table
            0x50007, 0x51000, // guest 7's table, PRIVATE and open
            0x60007, 0x52000, // guest 7's page, MERGEABLE and open
            0xe0009, 0x4000,  // a fixed page, with its leaf in frame 4
            0x30000, 0,       // a LEAF, with guests 7, 8 and 9
            0x10007, 0x55000, // guest 7's page, PRIVATE and not open
            0x100000, 0,      // not well formed
            0, 0,
        ];
        let mut machine = Self { table, memory: vec![0; 10 * FRAME_WORDS] };
        machine.put(0, &HOST_TABLE);
        machine.put(1, &GUEST_TABLE);
        machine.put(4, &[(7, 0x53001), (8, 0x53003), (9, 0x60001)]);
        machine
    }

    /// Puts words in a frame, each at its index.
    fn put(&mut self, frame: usize, words: &[(usize, u64)]) {
        for &(index, word) in words {
            self.memory[frame * FRAME_WORDS + index] = word;
        }
    }

    fn walk(
        &self,
        [caller, root, root_type, host_root, va]: Arguments,
    ) -> Result<Mapping, Refusal> {
        walk(
            &self.table,
            &self.memory,
            caller,
            root,
            root_type,
            host_root,
            va,
        )
    }

    fn validate(&mut self, at: Arguments, kind: u64) -> Result<Reached, Refusal> {
        let [caller, root, root_type, host_root, va] = at;
        let (table, memory) = (&mut self.table, &self.memory);
        pvalidate_va(table, memory, caller, root, root_type, host_root, va, kind)
    }

    fn read(&self, at: Arguments, index: u64) -> Result<Reached, Refusal> {
        let [caller, root, root_type, host_root, va] = at;
        let (table, memory) = (&self.table, &self.memory);
        read_va(table, memory, caller, root, root_type, host_root, va, index)
    }

    fn write(&mut self, at: Arguments, index: u64) -> Result<Reached, Refusal> {
        let [caller, root, root_type, host_root, va] = at;
        let (table, memory) = (&self.table, &mut self.memory);
        write_va(
            table, memory, caller, root, root_type, host_root, va, index, 42,
        )
    }

    /// The walk and the three calls are refused like this, and nothing changes.
    fn refuses(&mut self, at: Arguments, refusal: Refusal) {
        let before = self.clone();
        assert_eq!(self.walk(at), Err(refusal), "{at:x?}");
        assert_eq!(self.validate(at, PRIVATE), Err(refusal), "{at:x?}");
        assert_eq!(self.validate(at, MERGEABLE), Err(refusal), "{at:x?}");
        assert_eq!(self.read(at, 3), Err(refusal), "{at:x?}");
        assert_eq!(self.write(at, 3), Err(refusal), "{at:x?}");
        assert!(*self == before);
    }

    /// The walk finds something, and the three calls answer these on it, PVALIDATE of the type that the walk finds for the host.
    fn answers(at: Arguments, calls: [Result<Answer, Refusal>; 3]) {
        let machine = Self::new();
        let Mapping { gpa, ntype, .. } = machine.walk(at).expect("the walk finds it");
        let reached = calls.map(|call| call.map(|answer| Reached { answer, gpa }));
        let validated = machine.clone().validate(at, ntype);
        let written = machine.clone().write(at, 3);
        assert_eq!(
            [validated, machine.read(at, 3), written],
            reached,
            "{at:x?}"
        );
    }
}

/// The host's table is its own table of the next level.
const HOST_TABLE: [(usize, u64); 14] = [
    (0x00, 0x0000_0000_0000_0001), // itself
    (0x01, 0x0000_0000_0000_0081), // itself, as a large page
    (0x02, 0x0000_0000_0000_a001), // a table in frame 10, which memory lacks
    (0x03, 0x0000_0000_0000_6001), // a table in frame 6, whose entry is bad
    (0x50, 0x0030_0000_0000_2001), // LEAF
    (0x51, 0x0010_0000_0000_1001), // guest 7's table
    (0x52, 0x0020_0000_0000_2001), // guest 7's page
    (0x53, 0x0020_0000_0000_3001), // the fixed page
    (0x54, 0x0010_0000_0000_a001), // frame 10, as PRIVATE
    (0x55, 0x0010_0000_0000_5001), // the page that is not open
    (0x56, 0x0010_0000_0000_6001), // the frame with the bad entry
    (0x57, 0x0000_0000_0000_7001), // frame 7, SHARED
    (0x58, 0x0020_0000_0000_2001), // guest 7's page again, which is at another guest address
    (0x59, 0x0000_0000_0000_9001), // frame 9, which the table does not have
];

/// The guest's table is its own table of the next level.
const GUEST_TABLE: [(usize, u64); 16] = [
    (0x00, 0x0010_0000_0005_1001), // itself
    (0x01, 0x0010_0000_0005_1081), // itself, as a large page
    (0x02, 0x0030_0000_0005_2001), // LEAF
    (0x03, 0x0021_0000_0000_0001), // the guest address 2^48
    (0x50, 0x0010_0000_0005_0001), // what the host has as LEAF
    (0x52, 0x0020_0000_0005_2001), // the page
    (0x53, 0x0020_0000_0005_3001), // the fixed page
    (0x54, 0x0010_0000_0005_4001), // what the host has in frame 10
    (0x55, 0x0010_0000_0005_5001), // the page that is not open
    (0x56, 0x0010_0000_0005_6001), // what the host has in the frame with the bad entry
    (0x57, 0x0000_0000_0005_7001), // the SHARED page
    (0x58, 0x0020_0000_0005_8001), // the page, at another guest address
    (0x59, 0x0000_0000_0005_9001), // what the host has in frame 9
    (0x5a, 0x0010_0000_0005_a001), // what the host has not
    (0x5b, 0x0010_0000_0020_0001), // what the host has in a large page
    (0x5c, 0x0010_0000_0005_2001), // the page, PRIVATE
];

#[test]
fn the_walk_finds_address_frame_and_types() {
    for (va, [gpa, hpa, gtype, ntype]) in [
        (0, [0x51000, 0x1000, 1, 1]),
        (0x1000, [0x51000, 0x1000, 1, 1]), // bit 7 is ignored at the last level
        (0x52000, [0x52000, 0x2000, 2, 2]),
        (0x53000, [0x53000, 0x3000, 2, 2]),
        (0x54000, [0x54000, 0xa000, 1, 1]),
        (0x57000, [0x57000, 0x7000, 0, 0]),
        (0x58000, [0x58000, 0x2000, 2, 2]),
        (0x59000, [0x59000, 0x9000, 0, 0]),
        (0x5c000, [0x52000, 0x2000, 1, 2]),
    ] {
        #[rustfmt::skip]
        let mapping = Mapping { gpa, hpa, gtype, ntype };
        assert_eq!(Machine::new().walk(to(va)), Ok(mapping), "{va:x}");
    }
}

#[test]
fn validating_sets_one_flag() {
    let mut machine = Machine::new();
    let mut expected = machine.clone();
    expected.table[10] = 0x50007;
    let [opened, already] = [Answer::Opened, Answer::Already];
    for answer in [opened, already, already] {
        let reached = Reached {
            answer,
            gpa: 0x55000,
        };
        assert_eq!(machine.validate(to(0x55000), 1), Ok(reached));
        assert!(machine == expected);
    }
}

#[test]
fn writing_writes_one_word_and_reading_reads_it() {
    for (va, gpa, frame) in [
        (0x52000, 0x52000, 2),
        (0x57000, 0x57000, 7),
        (0x59000, 0x59000, 9),
    ] {
        for index in [0, 3, 511] {
            let mut machine = Machine::new();
            let mut expected = machine.clone();
            expected.put(frame, &[(index, 42)]);
            let done = Reached {
                answer: Answer::Done,
                gpa,
            };
            assert_eq!(machine.write(to(va), index as u64), Ok(done), "{va:x}");
            assert!(machine == expected, "{va:x}");
            let answer = Answer::Word(42);
            assert_eq!(
                machine.read(to(va), index as u64),
                Ok(Reached { answer, gpa })
            );
        }
    }
}

#[test]
fn a_guest_reads_its_table_by_its_own_address() {
    let answer = Answer::Word(0x0010_0000_0005_1081);
    let reached = Reached {
        answer,
        gpa: 0x51000,
    };
    assert_eq!(Machine::new().read(to(0), 1), Ok(reached));
}

#[test]
fn wrong_lengths_are_1() {
    for (table, memory) in [(0, 5120), (15, 5120), (22, 5120), (16, 3584), (16, 5121)] {
        let mut wrong = Machine::new();
        wrong.table.resize(table, 0);
        wrong.memory.resize(memory, 0);
        wrong.refuses(to(0), Refusal::Geometry);
        wrong.refuses([512, 1, 3, 1, 1], Refusal::Geometry); // and would be 2
    }
}

#[test]
fn wrong_arguments_are_2() {
    for at in [
        [512, 0x51000, 1, 0, 0],
        [7, 0x51001, 1, 0, 0],
        [7, 1 << 52, 1, 0, 0],
        [7, 0x51000, 3, 0, 0],
        [7, 0x51000, u64::MAX, 0, 0],
        [7, 0x51000, 1, 8, 0],
        [7, 0x51000, 1, 1 << 52, 0],
        to(0x1),
        to(1 << 47),
        to(0xffff_7fff_ffff_f000),
        to(0x7fff_8000_0000_0000),
        to(1 << 63),
        [0, 0x51000, 3, 0, 0], // and would be 3
    ] {
        Machine::new().refuses(at, Refusal::Argument);
    }
}

#[test]
fn both_halves_of_the_virtual_addresses_are_walked() {
    for va in [
        0x7fff_ffff_f000,
        0xffff_8000_0000_0000,
        0xffff_ffff_ffff_f000,
    ] {
        Machine::new().refuses(to(va), Refusal::AbsentEntry);
    }
}

#[test]
fn another_argument_that_is_wrong_is_2_before_3() {
    for caller in [0, 7] {
        let at = [caller, 0x51000, 1, 0, 0];
        let mut machine = Machine::new();
        for kind in [0, 3, 4, u64::MAX] {
            assert_eq!(machine.validate(at, kind), Err(Refusal::Argument));
        }
        for index in [512, u64::MAX] {
            assert_eq!(machine.read(at, index), Err(Refusal::Argument));
            assert_eq!(machine.write(at, index), Err(Refusal::Argument));
        }
    }
}

#[test]
fn the_host_is_3() {
    Machine::new().refuses([0, 0x51000, 1, 0, 0], Refusal::Caller);
    Machine::new().refuses([0, 1 << 48, 1, 0x1000, 0], Refusal::Caller); // and would be 2 on the way
}

#[test]
fn what_is_met_on_the_way_has_its_own_number() {
    let bad = Refusal::BadEntry(Reason::SpareBits);
    for (at, refusal) in [
        ([7, 1 << 48, 1, 0, 0], Refusal::Argument), // the root
        (to(0x3000), Refusal::Argument),            // the page
        (to(0x180_0000_0000), Refusal::Argument),   // a table
        ([7, 0x51000, 1, 0xa000, 0], Refusal::Outside),
        ([7, 0x451000, 1, 0, 0], Refusal::Outside),
        ([7, 0x54000, 1, 0, 0], Refusal::Outside),
        ([7, 0x51000, 1, 0x6000, 0], bad),
        ([7, 0x651000, 1, 0, 0], bad),
        ([7, 0x56000, 1, 0, 0], bad),
        ([7, 0x51000, 1, 0x1000, 0], Refusal::PageType), // the host reads SHARED frames alone
        ([7, 0x51000, 2, 0, 0], Refusal::PageType),
        (to(0x2000), Refusal::PageType),  // LEAF in the guest's table
        (to(0x50000), Refusal::PageType), // and in the host's
        ([9, 0x51000, 1, 0, 0], Refusal::Owner),
        ([7, 0x58000, 2, 0, 0], Refusal::Address),
        ([9, 0x53000, 2, 0, 0], Refusal::Address),
        ([7, 0x55000, 1, 0, 0], Refusal::NotValidated),
        ([8, 0x53000, 2, 0, 0], Refusal::BrokenLeaf),
        ([6, 0x53000, 2, 0, 0], Refusal::NoPlace),
        (to(0x4000), Refusal::AbsentEntry),
        (to(0x5a000), Refusal::AbsentEntry), // of the host
        (to(0x80_0000_0000), Refusal::LargePage),
        (to(0x4000_0000), Refusal::LargePage),
        (to(0x20_0000), Refusal::LargePage),
        (to(0x5b000), Refusal::LargePage), // of the host
    ] {
        Machine::new().refuses(at, refusal);
    }
}

#[test]
fn what_is_found_is_refused_as_the_call_on_it_is() {
    let bad = Err(Refusal::BadEntry(Reason::SpareBits));
    let outside = Err(Refusal::Outside);
    let differs = Err(Refusal::PageType);
    let unopened = Err(Refusal::NotValidated);
    let [word, done] = [Ok(Answer::Word(0)), Ok(Answer::Done)];
    Machine::answers(to(0x52000), [Ok(Answer::Already), word, done]);
    Machine::answers(
        to(0x53000),
        [Err(Refusal::Owner), word, Err(Refusal::Fixed)],
    );
    Machine::answers(to(0x54000), [outside; 3]);
    Machine::answers(to(0x55000), [Ok(Answer::Opened), unopened, unopened]);
    Machine::answers(to(0x56000), [bad; 3]);
    Machine::answers(to(0x58000), [Err(Refusal::Address); 3]);
    Machine::answers(to(0x5c000), [Ok(Answer::Already), differs, differs]);
}

#[test]
fn validating_a_fixed_page_is_10_to_its_owner_alone() {
    let mut machine = Machine::new();
    machine.table[6] = 0xe0007;
    assert_eq!(machine.validate(to(0x53000), 2), Err(Refusal::Fixed));
}
