//! What is printed where a fault is found: the smallest case, as words and as lines of a script, and what was replied.

use std::fmt;

use common::layout::FRAME_WORDS;
use second::{Answer, Mapping, Reached};

use crate::monitor::{Monitor, Outcome, Part};
use crate::pair::Finding;
use crate::requests::Shown;
use crate::shrink::{smallest, Case, Check};

/// At most so many words of a table or memory are printed.
const PRINTED: usize = 40;

pub struct Report {
    pub part: &'static str,
    pub names: [String; 2],
    pub case: Case,
    pub finding: Finding,
}

impl Report {
    /// The report of a case that showed a fault, made small first. A monitor that keeps something between calls may not show it again.
    pub fn new(
        part: &'static str,
        monitors: [&dyn Monitor; 2],
        case: Case,
        mut finding: Finding,
        check: &Check,
    ) -> Box<Self> {
        let case = match check(&case) {
            Some(_) => smallest(case, check),
            None => case,
        };
        match check(&case) {
            Some(again) => finding = *again,
            None => finding.claim = Some("the same calls do not show this again".to_owned()),
        }
        Box::new(Self {
            part,
            names: monitors.map(|monitor| monitor.name().to_owned()),
            case,
            finding,
        })
    }

    /// How many words of the table and of memory are not zero.
    pub fn words(&self) -> (usize, usize) {
        let count = |words: &[u64]| words.iter().filter(|&&word| word != 0).count();
        (
            count(&self.case.start.table),
            count(&self.case.start.memory),
        )
    }

    fn print_finding(&self, f: &mut fmt::Formatter<'_>) -> fmt::Result {
        let Self { names, finding, .. } = self;
        writeln!(f, "at `{}`:", Shown(&finding.request))?;
        for (name, outcome) in names.iter().zip(&finding.outcomes) {
            writeln!(f, "    {name}: {}", said(outcome))?;
        }
        if let Some(claim) = &finding.claim {
            writeln!(f, "    {claim}")?;
        }
        for word in &finding.words {
            let (place, [one, two]) = (place(word.in_table, word.position), word.words);
            let [first, second] = names;
            writeln!(f, "    after it {place}: {first} {one:x}, {second} {two:x}")?;
        }
        Ok(())
    }
}

impl fmt::Display for Report {
    fn fmt(&self, f: &mut fmt::Formatter<'_>) -> fmt::Result {
        let Case { start, requests } = &self.case;
        let (t, m) = (start.table.len(), start.memory.len());
        writeln!(f, "{}: a fault", self.part)?;
        writeln!(
            f,
            "table of {t} words, memory of {m}; zero but for, in hex:"
        )?;
        print_words(f, true, &start.table)?;
        print_words(f, false, &start.memory)?;
        writeln!(f, "calls:")?;
        for request in requests {
            writeln!(f, "    {}", Shown(request))?;
        }
        self.print_finding(f)
    }
}

fn print_words(f: &mut fmt::Formatter<'_>, in_table: bool, words: &[u64]) -> fmt::Result {
    let set = words.iter().enumerate().filter(|(_, &word)| word != 0);
    for (position, word) in set.clone().take(PRINTED) {
        writeln!(f, "    {} = {word:x}", place(in_table, position))?;
    }
    match set.count().saturating_sub(PRINTED) {
        0 => Ok(()),
        more => writeln!(f, "    and {more} more"),
    }
}

/// A word's place, as docs/CALLS.md writes it.
fn place(in_table: bool, position: usize) -> String {
    let (frame, index) = (position / FRAME_WORDS, position % FRAME_WORDS);
    match in_table {
        true => format!("t[{position}]"),
        false => format!("m[{FRAME_WORDS}*{frame} + {index}]"),
    }
}

fn said(outcome: &Outcome) -> String {
    match outcome {
        Outcome::Answered(answer) => answered(*answer),
        Outcome::Handed(part) => handed(part),
        Outcome::Mapped(Ok(mapping)) => mapped(*mapping),
        Outcome::Mapped(Err(refusal)) => answered((*refusal).into()),
        Outcome::Reached(reached) => named(*reached),
        Outcome::Panicked => "panicked".to_owned(),
    }
}

fn handed(part: &Part) -> String {
    let length = part.words.len();
    match part.start {
        Some(start) => format!("hands back {length} words from {} on", place(false, start)),
        None => format!("hands back {length} words that are no part of memory"),
    }
}

fn mapped(mapping: Mapping) -> String {
    #[rustfmt::skip]
    let Mapping { gpa, hpa, gtype, ntype } = mapping;
    format!("finds guest address {gpa:x}, frame {hpa:x}, types {gtype:x} and {ntype:x}")
}

fn named(reached: Reached) -> String {
    let Reached { answer, gpa } = reached;
    match (answer, gpa) {
        (Answer::Refused { .. }, 0) => answered(answer),
        _ => format!("{}, at guest address {gpa:x}", answered(answer)),
    }
}

fn answered(answer: Answer) -> String {
    match answer {
        Answer::Refused { number, reason: 0 } => format!("refused with {number}"),
        Answer::Refused { number, reason } => format!("refused with {number}, reason {reason}"),
        Answer::Closed { asid, gpa } => format!("closed {asid:x} {gpa:x}"),
        Answer::Unfixed { asid } => format!("unfixed {asid:x}"),
        Answer::Word(word) => format!("word {word:x}"),
        Answer::Count(count) => format!("count {count:x}"),
        Answer::Done => "done".to_owned(),
        Answer::None => "none".to_owned(),
        Answer::Opened => "opened".to_owned(),
        Answer::Already => "already".to_owned(),
    }
}
