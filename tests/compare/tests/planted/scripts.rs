//! Faults in a script program: what a reader or printer gets wrong easily.

use compare::program::second;
use compare::run::{CALLS, SEED};
use compare::scripts::{self, ScriptReport, Wrong};
use compare::table::Table;

type Program = fn(&[u8]) -> Vec<u8>;

fn found(program: Program) -> Option<Box<ScriptReport>> {
    let (mut table, mut wrong) = (Table::new(), Wrong::default());
    scripts::compare([&program, &second], SEED, CALLS / 5, &mut table, &mut wrong).err()
}

/// The second program, fed the text with each line changed.
fn with_lines(text: &[u8], change: impl Fn(&[u8]) -> Vec<u8>) -> Vec<u8> {
    let ended = text.last() == Some(&b'\n');
    let whole = text.strip_suffix(b"\n").unwrap_or(text);
    let lines: Vec<Vec<u8>> = whole.split(|&byte| byte == b'\n').map(change).collect();
    let mut text = lines.join(&b'\n');
    if ended {
        text.push(b'\n');
    }
    second(&text)
}

fn replaced(text: &[u8], from: &str, to: &str) -> Vec<u8> {
    String::from_utf8_lossy(text).replace(from, to).into_bytes()
}

const FAULTS: [(&str, Program); 14] = [
    ("an empty line prints nothing", |text| {
        let kept = text
            .split_inclusive(|&byte| byte == b'\n')
            .filter(|line| *line != b"\n");
        second(&kept.collect::<Vec<_>>().concat())
    }),
    ("a carriage return at the end is dropped", |text| {
        with_lines(text, |line| {
            line.strip_suffix(b"\r").unwrap_or(line).to_vec()
        })
    }),
    ("spaces at both ends are dropped", |text| {
        with_lines(text, |line| line.trim_ascii().to_vec())
    }),
    ("two spaces are one", |text| {
        with_lines(text, |line| replaced(line, "  ", " "))
    }),
    ("a tab is a space", |text| {
        with_lines(text, |line| replaced(line, "\t", " "))
    }),
    ("a small letter is a letter", |text| {
        with_lines(text, |line| {
            let mut line = line.to_vec();
            if let [b'd' | b'f' | b'v', b' ', ..] = line[..] {
                line[0].make_ascii_uppercase();
            }
            line
        })
    }),
    ("upper-case digits are digits", |text| {
        with_lines(text, |line| match line.split_first() {
            Some((&letter, rest)) => [&[letter], &rest.to_ascii_lowercase()[..]].concat(),
            None => Vec::new(),
        })
    }),
    ("17 digits are taken where the first is 0", |text| {
        with_lines(text, |line| {
            let fields = line.split(|&byte| byte == b' ');
            let short = |field: &[u8]| match field {
                [b'0', rest @ ..] if rest.len() == 16 => rest.to_vec(),
                field => field.to_vec(),
            };
            fields.map(short).collect::<Vec<_>>().join(&b' ')
        })
    }),
    ("a last line that is not ended is dropped", |text| {
        let end = text
            .iter()
            .rposition(|&byte| byte == b'\n')
            .map_or(0, |place| place + 1);
        second(&text[..end])
    }),
    ("a line ends at a zero byte", |text| {
        with_lines(text, |line| {
            line.split(|&byte| byte == 0)
                .next()
                .unwrap_or_default()
                .to_vec()
        })
    }),
    ("a long line is read in pieces of 1,024 bytes", |text| {
        with_lines(text, |line| {
            line.chunks(1024).collect::<Vec<_>>().join(&b'\n')
        })
    }),
    ("refusals are printed in hex", |text| {
        replaced(&second(text), "no 10\n", "no a\n")
    }),
    ("a new owner is printed in decimal", |text| {
        replaced(&second(text), "X ok 1ff\n", "X ok 511\n")
    }),
    ("a new owner is printed only where there is one", |text| {
        replaced(&second(text), "X ok 0\n", "X ok\n")
    }),
];

#[test]
fn faults_in_script_programs_are_found() {
    for (name, program) in FAULTS {
        let report = found(program).unwrap_or_else(|| panic!("not found: {name}"));
        let lines = report.text.split(|&byte| byte == b'\n').count();
        let long = name.contains("1,024");
        let small = lines <= 10 && (long || report.text.len() <= 200);
        assert!(small, "not small: {name}\n{report}");
        assert_ne!(report.printed[0], report.printed[1], "{name}\n{report}");
    }
}

/// Both programs may be wrong in the same way: which lines are wrong is known from how they were made.
#[test]
fn a_fault_of_both_programs_is_found() {
    let sloppy = |text: &[u8]| with_lines(text, |line| replaced(line, "\t", " "));
    let (mut table, mut wrong) = (Table::new(), Wrong::default());
    let run = scripts::compare([&sloppy, &sloppy], SEED, 10_000, &mut table, &mut wrong);
    let report = run.expect_err("the fault is found");
    assert!(
        report.text.contains(&b'\t') && report.text.len() < 50,
        "{report}"
    );
}
