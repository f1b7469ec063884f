//! The data of document 01: its worked script with the answer of request Q-3,
//! its entries on both sides of the line with the reasons of request Q-2, and
//! the mistakes that look right. Then the stuck pages of request Q-3.

use second::script::{parse, run};
use second::{Answer, Entry, LeafWord, Reason};

const INPUT: &str = "\
U 0 1000 50000 7 2 ; V 7 50000 1000 2 ; W 7 50000 1000 2 2 3 2a
U 0 2000 60000 9 2 ; V 9 60000 2000 2 ; W 9 60000 2000 2 2 3 2a
U 0 3000 0 0 3 ; F 0 1000 3000 ; M 0 1000 2000
R 9 60000 1000 2 2 3 ; R 9 60000 2000 2 2 3 ; W 7 50000 1000 2 2 3 2b
X 0 1000 ; D 0 1000 4000 9 ; X 0 1000
W 7 50000 1000 2 2 3 2b ; R 9 60000 4000 2 2 3 ; C 9
U 0 1000 50000 7 2 ; R 7 50000 1000 2 2 3
";

const OUTPUT: &str = "\
U ok none ; V ok opened ; W ok
U ok none ; V ok opened ; W ok
U ok none ; F ok ; M ok
R ok 2a ; R no 6 ; W no 10
X no 17 ; D ok ; X ok 7
W ok ; R ok 2a ; C ok 1
U ok closed 7 50000 ; R no 9
";

#[test]
fn the_worked_script() {
    let input = INPUT.replace(" ; ", "\n");
    let expected = OUTPUT.replace(" ; ", "\n");
    for input in [input.as_str(), input.trim_end()] {
        let mut output = Vec::new();
        run(input.as_bytes(), &mut output).unwrap();
        assert_eq!(String::from_utf8(output).unwrap(), expected);
    }
}

const GOOD: [[u64; 2]; 6] = [
    [0, 0],
    [0x20007, 0x50000],
    [0x60007, 0x50000],
    [0xe0007, 0x3000],
    [0x101ff, 0x1000],
    [0x30000, 0],
];

const BAD: [([u64; 2], Reason); 6] = [
    ([0xe0007, 0x8000], Reason::Address), // the leaf is frame N
    ([0xa0007, 0x3000], Reason::Flags),   // FIXED without VALIDATED
    ([0x10000, 0x1000], Reason::Asid),    // PRIVATE of guest 0
    ([0x10200, 0x1000], Reason::Asid),    // PRIVATE of guest 512
    ([0x30000, 0x1000], Reason::Address), // a LEAF with an address
    ([0x100000, 0], Reason::SpareBits),   // bit 20
];

#[test]
fn entries_on_both_sides_of_the_line() {
    for words in GOOD {
        let entry = Entry::decode(words, 8).expect("a good entry");
        assert_eq!(entry.encode(), words);
    }
    for (words, reason) in BAD {
        assert_eq!(Entry::decode(words, 8), Err(reason), "{words:x?}");
    }
}

#[test]
fn entries_on_both_sides_of_the_line_in_a_table() {
    let census_with = |[head, gpa]: [u64; 2]| {
        let mut table = [0; 16];
        [table[2], table[3]] = [head, gpa];
        table[6] = 0x30000; // frame 3 is the leaf that (e0007, 3000) names
        second::census(&table, &[0; 10 * 512], 7)
    };
    let counts = GOOD.map(census_with);
    assert_eq!(counts, [0, 0, 1, 0, 0, 0].map(Answer::Count));
    let refusals = BAD.map(|(words, _)| census_with(words));
    let reasons = [4, 3, 2, 2, 4, 1];
    assert_eq!(
        refusals,
        reasons.map(|reason| Answer::Refused { number: 5, reason })
    );
}

#[test]
fn leaf_words_on_both_sides_of_the_line() {
    let present = LeafWord::Present { gpa: 0x50000 };
    assert_eq!(LeafWord::decode(0x50001), present);
    assert_eq!(LeafWord::decode(0x50000), LeafWord::Absent);
    assert_eq!(LeafWord::decode(0x50003), LeafWord::Misshapen);
    assert_eq!(LeafWord::decode(0x10000000000001), LeafWord::Misshapen);
}

/// A refusal that carries no reason.
fn refused(number: u8) -> Answer {
    Answer::Refused { number, reason: 0 }
}

/// A table of 8 frames and a memory of 10.
struct Machine {
    table: [u64; 16],
    memory: [u64; 10 * 512],
}

impl Machine {
    /// An empty table and zeroed memory, on which these lines are accepted.
    fn after(lines: &[&str]) -> Self {
        let mut machine = Self {
            table: [0; 16],
            memory: [0; 10 * 512],
        };
        for line in lines {
            let answer = machine.make(line);
            assert!(
                !matches!(answer, Answer::Refused { .. }),
                "{line}: {answer:?}"
            );
        }
        machine
    }

    fn make(&mut self, line: &str) -> Answer {
        let call = parse(line.as_bytes()).expect("a good line");
        call.make(&mut self.table, &mut self.memory)
    }

    fn check(&mut self, line: &str, answer: Answer) {
        assert_eq!(self.make(line), answer, "{line}");
    }
}

/// Guest 7's page at frame 1, fixed with the leaf at frame 3.
const FIXED: [&str; 5] = [
    "U 0 1000 50000 7 2",
    "V 7 50000 1000 2",
    "W 7 50000 1000 2 2 3 2a",
    "U 0 3000 0 0 3",
    "F 0 1000 3000",
];

/// Guest 9's page at frame 2, with the same contents.
const EQUAL: [&str; 3] = [
    "U 0 2000 60000 9 2",
    "V 9 60000 2000 2",
    "W 9 60000 2000 2 2 3 2a",
];

#[test]
fn the_merged_frame_becomes_shared() {
    let mut machine = Machine::after(&[&FIXED[..], &EQUAL, &["M 0 1000 2000"]].concat());
    assert_eq!(machine.table[4..6], [0, 0]);
    assert_eq!(machine.memory[2 * 512..3 * 512], [0; 512]);
    machine.check("R 9 60000 2000 2 2 3", refused(6));
    machine.check("R 9 60000 1000 2 2 3", Answer::Word(0x2a));
    machine.check("C 9", Answer::Count(1));
}

#[test]
fn a_taken_leaf_word_is_not_overwritten() {
    let again = [
        "U 0 4000 61000 9 2",
        "V 9 61000 4000 2",
        "W 9 61000 4000 2 2 3 2a",
    ];
    let lines = [&FIXED[..], &EQUAL, &["M 0 1000 2000"], &again].concat();
    let mut machine = Machine::after(&lines);
    machine.check("M 0 1000 4000", refused(14));
    machine.check("R 9 60000 1000 2 2 3", Answer::Word(0x2a));
    machine.check("R 9 61000 4000 2 2 3", Answer::Word(0x2a));
    machine.check("C 9", Answer::Count(2));
}

#[test]
fn a_leaf_serves_one_fixed_page() {
    let mut machine = Machine::after(&[&FIXED[..], &EQUAL].concat());
    machine.check("F 0 2000 3000", refused(15));
    machine.check("R 7 50000 1000 2 2 3", Answer::Word(0x2a));
    machine.check("X 0 1000", Answer::Unfixed { asid: 7 });
    machine.check("U 0 3000 0 0 3", Answer::None);
    machine.check("F 0 2000 3000", Answer::Done);
}

#[test]
fn a_private_access_checks_the_owner() {
    let mut machine = Machine::after(&["U 0 1000 50000 7 1", "V 7 50000 1000 1"]);
    machine.check("W 9 50000 1000 1 1 3 2a", refused(7));
    machine.check("R 9 50000 1000 1 1 3", refused(7));
    machine.check("R 7 51000 1000 1 1 3", refused(8));
    machine.check("R 7 50000 1000 1 1 3", Answer::Word(0));
}

#[test]
fn a_change_of_guest_zeroes_the_frame() {
    let private = [
        "U 0 1000 50000 7 1",
        "V 7 50000 1000 1",
        "W 7 50000 1000 1 1 3 2a",
    ];
    let closed = Answer::Closed {
        asid: 7,
        gpa: 0x50000,
    };
    let mut machine = Machine::after(&private);
    machine.check("U 0 1000 50000 9 1", closed);
    assert_eq!(machine.memory[512 + 3], 0);
    machine.check("V 9 50000 1000 1", Answer::Opened);
    machine.check("R 9 50000 1000 1 1 3", Answer::Word(0));
    // A change of address or type alone keeps the contents.
    let mut machine = Machine::after(&private);
    machine.check("U 0 1000 51000 7 2", closed);
    assert_eq!(machine.memory[512 + 3], 0x2a);
}

#[test]
fn a_page_whose_owner_left_goes_to_the_guest_in_it() {
    let left = ["M 0 1000 2000", "D 0 1000 4000 7"];
    let mut machine = Machine::after(&[&FIXED[..], &EQUAL, &left].concat());
    machine.check("X 0 1000", Answer::Unfixed { asid: 9 });
    assert_eq!(machine.table[2..4], [0x60009, 0x60000]);
    // Each guest has its own page now.
    machine.check("R 9 60000 1000 2 2 3", Answer::Word(0x2a));
    machine.check("R 7 50000 1000 2 2 3", refused(7));
    machine.check("W 9 60000 1000 2 2 3 2b", Answer::Done);
    machine.check("R 9 60000 1000 2 2 3", Answer::Word(0x2b));
    machine.check("R 7 50000 4000 2 2 3", Answer::Word(0x2a));
    machine.check("C 7", Answer::Count(1));
    machine.check("C 9", Answer::Count(1));
    // Both frames can be given away.
    let closed = Answer::Closed {
        asid: 9,
        gpa: 0x60000,
    };
    machine.check("U 0 1000 0 0 0", closed);
    machine.check("U 0 3000 70000 b 1", Answer::None);
}

#[test]
fn a_page_that_all_have_left_is_freed() {
    let left = ["M 0 1000 2000", "D 0 1000 4000 7", "D 0 1000 5000 9"];
    let mut machine = Machine::after(&[&FIXED[..], &EQUAL, &left].concat());
    machine.check("X 0 1000", Answer::Unfixed { asid: 0 });
    for frame in [1, 3] {
        assert_eq!(machine.table[2 * frame..2 * frame + 2], [0, 0]);
        assert_eq!(machine.memory[512 * frame..512 * (frame + 1)], [0; 512]);
    }
    machine.check("R 7 50000 1000 2 2 3", refused(6));
    machine.check("R 7 50000 4000 2 2 3", Answer::Word(0x2a));
    machine.check("R 9 60000 5000 2 2 3", Answer::Word(0x2a));
    machine.check("C 7", Answer::Count(1));
    machine.check("C 9", Answer::Count(1));
    machine.check("X 0 1000", refused(6));
    machine.check("U 0 1000 0 0 3", Answer::None);
    machine.check("U 0 3000 70000 b 1", Answer::None);
}
