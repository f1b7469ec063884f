//! A list of calls on the second program, held against its bookkeeping of demand 3. This file is compiled twice: into the test, with the
//! right second program, and into each wrong one.

use second::layout::{ENTRY_WORDS, FRAME_WORDS};
use second::script::{parse, TABLE_FRAMES};
use second::{Answer, Ledger};

/// The first break of demand 3, on the script's empty table and a zeroed memory of so many frames: the number of the call from 1, the name
/// of what is then false and what the ledger says; empty where nothing is broken.
pub fn first_break<'a>(frames: usize, calls: impl IntoIterator<Item = &'a str>) -> String {
    let mut table = [0; TABLE_FRAMES * ENTRY_WORDS];
    let mut memory = vec![0; frames * FRAME_WORDS];
    let mut ledger = Ledger::new();
    for (number, line) in (1..).zip(calls) {
        let call = parse(line.as_bytes()).unwrap_or_else(|| panic!("a wrong line: {line:?}"));
        let before = memory.clone();
        let answer = call.make(&mut table, &mut memory);
        let noted = ledger.note(&call, answer, &before);
        let counted = noted.and_then(|()| ledger.places(&table, &memory));
        if let Err(said) = counted.and_then(|()| sound(answer)) {
            return format!("{number} {}: {said}", name(&said));
        }
    }
    String::new()
}

/// No history meets 5 or 12, which the ledger does not look at.
fn sound(answer: Answer) -> Result<(), String> {
    match answer {
        Answer::Refused { number: 5 | 12, .. } => Err(format!("{answer} is met")),
        _ => Ok(()),
    }
}

/// How the messages end, and the names that docs/PROMISES.md has for what is then false.
const NAMES: [(&str, &str); 11] = [
    (" openings", "counted"),
    (" was never opened", "opened_before"),
    (" was last written", "kept"),
    (" was found at the opening", "kept"),
    (" is bad: SpareBits", "never_broken"),
    (" is bad: Asid", "never_broken"),
    (" is bad: Flags", "never_broken"),
    (" is bad: Address", "never_broken"),
    (" is no leaf", "never_broken"),
    (" is misshapen", "never_broken"),
    (" is met", "never_broken"),
];

fn name(said: &str) -> &'static str {
    let known = NAMES.iter().find(|(end, _)| said.ends_with(end));
    known.map_or("no name for", |&(_, name)| name)
}
