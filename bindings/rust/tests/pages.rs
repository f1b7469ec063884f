//! Every refusal that whole shared pages can meet, and what they touch where they are accepted. The numbers are worked out by hand.

use skorbilek::{page_check, page_read, page_write, Answer, Reason, Refusal, FRAME_WORDS};

/// Caller, gpa and hpa.
type Arguments = [u64; 3];

const FIRST_NO_ADDRESS: u64 = 1 << 52;
const LAST_ADDRESS: u64 = FIRST_NO_ADDRESS - 4096;

/// N = 8 and M = 10. Frames 0 and 7 are SHARED; every word of memory differs from every other.
struct Machine {
    table: Vec<u64>,
    memory: Vec<u64>,
}

impl Machine {
    #[rustfmt::skip]
    fn new() -> Self {
        let table = vec![
            0, 0,
            0x50007, 0x50000, // guest 7's, PRIVATE and open
            0x60007, 0x51000, // guest 7's, MERGEABLE and open
            0xe0007, 0x4000,  // guest 7's, fixed, with its leaf in frame 4
            0x30000, 0,       // a LEAF
            0x10007, 0x52000, // guest 7's, not open
            0x100000, 0,      // not well formed
            0, 0,
        ];
        let memory = (1..=10 * FRAME_WORDS as u64).collect();
        Self { table, memory }
    }

    fn read(&self, [caller, gpa, hpa]: Arguments) -> Result<&[u64; FRAME_WORDS], Refusal> {
        page_read(&self.table, &self.memory, caller, gpa, hpa)
    }

    fn check(&self, [caller, gpa, hpa]: Arguments) -> Result<Answer, Refusal> {
        page_check(&self.table, &self.memory, caller, gpa, hpa)
    }

    /// Writes a page whose words are not in memory.
    fn write(&mut self, [caller, gpa, hpa]: Arguments, length: usize) -> Result<Answer, Refusal> {
        let words = page(length);
        page_write(&self.table, &mut self.memory, caller, gpa, hpa, &words)
    }

    /// All three are refused like this, and nothing changes.
    fn refuses(&mut self, arguments: Arguments, refusal: Refusal) {
        assert_eq!(self.check(arguments), Err(refusal), "{arguments:x?}");
        assert_eq!(self.read(arguments), Err(refusal), "{arguments:x?}");
        self.refuses_run(arguments, FRAME_WORDS, refusal);
    }

    fn refuses_run(&mut self, arguments: Arguments, length: usize, refusal: Refusal) {
        let before = self.memory.clone();
        let answer = self.write(arguments, length);
        assert_eq!(answer, Err(refusal), "{arguments:x?}, {length} words");
        assert!(self.memory == before);
    }

    /// All three are accepted, and are about the 512 words from this one on.
    fn accepts(&mut self, arguments: Arguments, start: usize) {
        let part = start..start + 512;
        assert_eq!(self.check(arguments), Ok(Answer::Done), "{arguments:x?}");
        let read = self.read(arguments).expect("accepted, as the check was");
        assert_eq!(
            read.as_ptr_range(),
            self.memory[part.clone()].as_ptr_range()
        );
        let mut expected = self.memory.clone();
        expected[part].copy_from_slice(&page(512));
        assert_eq!(self.write(arguments, 512), Ok(Answer::Done));
        assert!(self.memory == expected);
    }
}

fn page(length: usize) -> Vec<u64> {
    (0..length as u64).map(|index| !index).collect()
}

#[test]
fn any_party_is_accepted_at_any_address() {
    for caller in [0, 1, 7, 511] {
        for gpa in [0, 0x50000, LAST_ADDRESS] {
            Machine::new().accepts([caller, gpa, 0], 0);
            Machine::new().accepts([caller, gpa, 0x7000], 3584);
        }
    }
}

#[test]
fn frames_without_an_entry_are_accepted() {
    Machine::new().accepts([0, 0, 0x8000], 4096);
    Machine::new().accepts([7, 0x50000, 0x9000], 4608);
}

#[test]
fn wrong_lengths_are_1() {
    for (table, memory) in [
        (0, 5120),
        (15, 5120),
        (17, 5120),
        (22, 5120),
        (16, 0),
        (16, 3584),
        (16, 5119),
        (16, 5121),
    ] {
        let mut wrong = Machine::new();
        wrong.table.resize(table, 0);
        wrong.memory.resize(memory, 0);
        wrong.refuses([0, 0, 0], Refusal::Geometry);
        wrong.refuses([512, 1, 1], Refusal::Geometry); // and would be 2
        wrong.refuses_run([0, 0, 0], 511, Refusal::Geometry);
    }
}

#[test]
fn wrong_arguments_are_2() {
    for (caller, gpa, hpa) in [
        (512, 0, 0),
        (u64::MAX, 0, 0),
        (0, 1, 0),
        (0, 0x50800, 0),
        (0, FIRST_NO_ADDRESS, 0),
        (0, 0, 1),
        (0, 0, 8),
        (0, 0, FIRST_NO_ADDRESS),
    ] {
        Machine::new().refuses([caller, gpa, hpa], Refusal::Argument);
    }
    for hpa in [0xa000, 0x6000, 0x1000] {
        Machine::new().refuses([512, 0, hpa], Refusal::Argument); // and would be 4, 5 and 6
        Machine::new().refuses([0, 1, hpa], Refusal::Argument);
    }
}

#[test]
fn a_run_that_is_no_page_is_2() {
    for length in [0, 1, 511, 513, 1024] {
        // with 512 words: accepted twice, then 4, 5 and 6
        for hpa in [0, 0x9000, 0xa000, 0x6000, 0x1000] {
            Machine::new().refuses_run([0, 0, hpa], length, Refusal::Argument);
        }
    }
}

#[test]
fn frames_that_memory_lacks_are_4() {
    for hpa in [0xa000, 0xb000, 1 << 51, LAST_ADDRESS] {
        Machine::new().refuses([0, 0, hpa], Refusal::Outside);
        Machine::new().refuses([7, 0x50000, hpa], Refusal::Outside);
    }
}

#[test]
fn an_entry_that_is_not_well_formed_is_5_with_its_reason() {
    for (bad, reason) in [
        ([0x100000, 0], Reason::SpareBits),
        ([0x110000, 0x1000], Reason::SpareBits), // and PRIVATE of no guest
        ([0x10200, 0x1000], Reason::Asid),
        ([0x40007, 0], Reason::Asid), // and SHARED with a flag
        ([0xa0007, 0x3000], Reason::Flags),
        ([0xa0007, 0x8000], Reason::Flags), // and a leaf that is not below N
        ([0xe0007, 0x8000], Reason::Address),
    ] {
        let mut machine = Machine::new();
        machine.table[12..14].copy_from_slice(&bad);
        machine.refuses([0, 0, 0x6000], Refusal::BadEntry(reason));
        machine.refuses([7, 0x50000, 0x6000], Refusal::BadEntry(reason));
    }
}

#[test]
fn pages_of_guests_and_leaves_are_6() {
    let pages = [
        (0x50000, 0x1000),
        (0x51000, 0x2000),
        (0x53000, 0x3000),
        (0, 0x4000),
        (0x52000, 0x5000),
    ];
    for (gpa, hpa) in pages {
        for caller in [0, 7, 9] {
            Machine::new().refuses([caller, gpa, hpa], Refusal::PageType);
        }
    }
}
