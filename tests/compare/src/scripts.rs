//! Part (a): scripts for two script programs, whose outputs must be equal, byte for byte. Most lines are calls that mean something in
//! the state that the script has come to; wrong lines are among them.

use std::fmt;

use second::{Call, Request};

use crate::arguments;
use crate::guided;
use crate::monitor::{make, Second};
use crate::random::Random;
use crate::shrink::fewest;
use crate::state::State;
use crate::table::Table;
use crate::wrong_lines::{with_number, KINDS};

/// A script program: what it prints for a text.
pub type Program<'a> = dyn Fn(&[u8]) -> Vec<u8> + 'a;

/// How many lines were wrong, in each way.
#[derive(Default)]
pub struct Wrong {
    pub lines: [u64; KINDS.len()],
}

/// A script on which the programs do not do what they should.
pub struct ScriptReport {
    pub text: Vec<u8>,
    pub printed: [Vec<u8>; 2],
}

#[derive(Clone)]
struct Line {
    bytes: Vec<u8>,
    /// In which way it is wrong, if it is.
    wrong: Option<usize>,
}

/// Runs scripts until this many calls were made.
pub fn compare(
    programs: [&Program; 2],
    seed: u64,
    calls: u64,
    table: &mut Table,
    wrong: &mut Wrong,
) -> Result<(), Box<ScriptReport>> {
    let mut random = Random::new(seed ^ 0x5c21);
    let end = table.calls() + calls;
    while table.calls() < end {
        let left = end - table.calls();
        let length = match random.below(20) {
            0 => random.below(3),
            1 => 3000,
            _ => 20 + random.below(400),
        };
        let ended = random.chance(70);
        let lines = script(&mut random, length.min(left));
        let printed = programs.map(|program| program(&text(&lines, ended)));
        if is_fault(&lines, ended, &printed) {
            return Err(report(programs, lines, ended));
        }
        for line in printed[0].split(|&byte| byte == b'\n') {
            table.count_line(line);
        }
        for kind in lines.iter().filter_map(|line| line.wrong) {
            wrong.lines[kind] += 1;
        }
    }
    Ok(())
}

/// A script of so many calls, with wrong lines among them.
fn script(random: &mut Random, calls: u64) -> Vec<Line> {
    let mut state = State::zero(8, 10);
    let mut lines = Vec::new();
    for _ in 0..calls {
        let call = match random.chance(5) {
            true => arguments::any(random, &state),
            false => guided::call(random, &state, 20),
        };
        if random.chance(15) {
            lines.push(wrong_line(random, &call));
        }
        make(&Second, &Request::Call(call), &mut state);
        let (bytes, wrong) = (spelled(random, &call), None);
        lines.push(Line { bytes, wrong });
    }
    if random.chance(30) {
        lines.push(wrong_line(random, &Call::Census { asid: 7 }));
    }
    lines
}

/// A line that would be this call, were it not wrong.
fn wrong_line(random: &mut Random, call: &Call) -> Line {
    let kind = random.index(KINDS.len());
    Line {
        bytes: (KINDS[kind].1)(random, call.to_string().as_bytes()),
        wrong: Some(kind),
    }
}

/// The line of a call; at times numbers have leading zeros, or all of them have 16 digits.
fn spelled(random: &mut Random, call: &Call) -> Vec<u8> {
    let line = call.to_string().into_bytes();
    match random.below(40) {
        0 => with_number(random, &line, |number| format!("{number:0>16}")),
        1 => with_number(random, &line, |number| format!("{number:0>4}")),
        2 => {
            let digits = random.pick(&[16, 16, 15]);
            let numbers = arguments::numbers(call).into_iter().enumerate();
            let padded = numbers.map(|(place, number)| match place {
                0 => format!(" {number:0digits$x}"), // with 15 digits a W has 119 bytes, else 120
                _ => format!(" {number:016x}"),
            });
            format!("{}{}", call.letter(), padded.collect::<String>()).into_bytes()
        }
        _ => line,
    }
}

/// The lines with their line feeds; the last has one if the text is ended.
fn text(lines: &[Line], ended: bool) -> Vec<u8> {
    let bytes: Vec<&[u8]> = lines.iter().map(|line| line.bytes.as_slice()).collect();
    let mut text = bytes.join(&b'\n');
    if ended && !lines.is_empty() {
        text.push(b'\n');
    }
    text
}

/// Whether the outputs differ, or a line that is wrong was not told from one that is right.
fn is_fault(lines: &[Line], ended: bool, printed: &[Vec<u8>; 2]) -> bool {
    let mut marks: Vec<bool> = lines.iter().map(|line| line.wrong.is_some()).collect();
    if !ended && lines.last().is_some_and(|line| line.bytes.is_empty()) {
        marks.pop(); // an empty rest is no line
    }
    let printed_marks = printed[0]
        .split_inclusive(|&byte| byte == b'\n')
        .map(|line| line == b"?\n");
    printed[0] != printed[1] || !printed_marks.eq(marks)
}

/// Drops lines and then bytes, as long as there is a fault.
fn report(programs: [&Program; 2], lines: Vec<Line>, ended: bool) -> Box<ScriptReport> {
    let run = |text: &[u8]| programs.map(|program| program(text));
    let lines = fewest(&lines, |lines| {
        is_fault(lines, ended, &run(&text(lines, ended)))
    });
    let mut text = text(&lines, ended);
    let differs = |text: &[u8]| {
        let [one, two] = run(text);
        one != two
    };
    if differs(&text) {
        text = fewest(&text, differs);
    }
    let printed = run(&text);
    Box::new(ScriptReport { text, printed })
}

impl Wrong {
    /// The ways to be wrong that never came.
    pub fn faults(&self) -> Vec<String> {
        let kinds = KINDS.iter().zip(self.lines);
        let missing = kinds.filter(|(_, count)| *count == 0);
        missing
            .map(|((name, _), _)| format!("never met in a script: a line with {name}"))
            .collect()
    }
}

impl fmt::Display for Wrong {
    fn fmt(&self, f: &mut fmt::Formatter<'_>) -> fmt::Result {
        let (lines, kinds) = (self.lines.iter().sum::<u64>(), KINDS.len());
        writeln!(f, "wrong lines in scripts: {lines}, of {kinds} kinds")
    }
}

impl fmt::Display for ScriptReport {
    fn fmt(&self, f: &mut fmt::Formatter<'_>) -> fmt::Result {
        let fault = match self.printed[0] == self.printed[1] {
            true => "a line that is right prints `?`, or a wrong one does not",
            false => "a difference",
        };
        writeln!(f, "scripts: {fault}. The script, bytes escaped:")?;
        writeln!(f, "    \"{}\"", self.text.escape_ascii())?;
        for (name, printed) in ["first", "second"].iter().zip(&self.printed) {
            writeln!(
                f,
                "the {name} program prints:\n    \"{}\"",
                printed.escape_ascii()
            )?;
        }
        Ok(())
    }
}
