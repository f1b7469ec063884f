//! The lists of calls in docs/PROMISES.md, each of which shows that a wrong rule breaks demand 3. The mistake is made in the second program
//! (`tests/second/wrong` has an edit of its source for each), and its bookkeeping has to break at the last call, as the document says.

#![forbid(unsafe_code)]

mod document;
mod edit;
mod history;
mod program;

use std::collections::BTreeSet;
use std::ffi::OsString;
use std::sync::Mutex;
use std::{fs, iter, thread};

use document::{rows, Row};
use program::Program;

const DOCUMENT: &str = concat!(env!("CARGO_MANIFEST_DIR"), "/../../docs/PROMISES.md");
const WRONG: &str = concat!(env!("CARGO_MANIFEST_DIR"), "/wrong");
const MUST_FAIL: &str = concat!(env!("CARGO_MANIFEST_DIR"), "/../../crates/rules/must-fail");

fn document() -> String {
    fs::read_to_string(DOCUMENT).expect("the document can be read")
}

/// The names of the edits in a folder.
fn names(folder: &str) -> BTreeSet<String> {
    let files = fs::read_dir(folder).expect("the folder can be listed");
    let files = files.map(|file| file.expect("the folder can be listed").file_name());
    let name = |file: OsString| Some(file.to_str()?.strip_suffix(".edit")?.to_owned());
    files.filter_map(name).collect()
}

/// The whole list, and then the list without each of its calls.
fn lists(calls: &[String]) -> Vec<Vec<&str>> {
    let all: Vec<&str> = calls.iter().map(String::as_str).collect();
    let without = |left_out| [&all[..left_out], &all[left_out + 1..]].concat();
    let shorter = (0..all.len()).map(without);
    iter::once(all.clone()).chain(shorter).collect()
}

/// Holds the first break of each of these lists against a row.
fn hold(row: &Row, breaks: &[String]) -> Result<(), String> {
    let (whole, shorter) = breaks.split_first().expect("the whole list was run");
    let wanted = format!("{} {}: ", row.calls.len(), row.broken);
    if !whole.starts_with(&wanted) {
        return Err(format!("not `{wanted}..` but `{whole}`"));
    }
    for (call, broken) in row.calls.iter().zip(shorter) {
        if !broken.is_empty() {
            return Err(format!("without `{call}` too: {broken}"));
        }
    }
    Ok(())
}

/// Runs the lists of a row on the right second program and on the wrong one.
fn check(row: &Row) -> Result<(), String> {
    let lists = lists(&row.calls);
    let right = history::first_break(row.frames, lists[0].iter().copied());
    if !right.is_empty() {
        return Err(format!("the right program: {right}"));
    }
    let text = fs::read_to_string(format!("{WRONG}/{}.edit", row.name));
    let edits = edit::parse(&text.map_err(|error| error.to_string())?)?;
    let wrong = Program::build(&row.name, &edits)?;
    hold(row, &wrong.first_breaks(row.frames, &lists)?)
}

/// What is wrong with the rows, looked at by two threads.
fn complaints(rows: &[Row]) -> Vec<String> {
    let next = Mutex::new(rows.iter());
    let complain = |row: &Row| check(row).err().map(|why| format!("{}: {why}", row.name));
    let work = || -> Vec<String> {
        iter::from_fn(|| next.lock().expect("no thread panicked").next())
            .filter_map(complain)
            .collect()
    };
    thread::scope(|scope| {
        let other = scope.spawn(work);
        let own = work();
        [own, other.join().expect("no thread panicked")].concat()
    })
}

#[test]
fn each_list_breaks_the_wrong_program_at_its_last_call() {
    let complaints = complaints(&rows(&document()));
    assert!(complaints.is_empty(), "{}", complaints.join("\n"));
}

#[test]
fn each_row_has_its_edits_and_each_edit_its_row() {
    let rows = rows(&document());
    let named: BTreeSet<String> = rows.iter().map(|row| row.name.clone()).collect();
    assert_eq!(named.len(), rows.len(), "a row for each name");
    assert_eq!(named, names(WRONG));
    let missing: Vec<_> = named.difference(&names(MUST_FAIL)).cloned().collect();
    assert!(missing.is_empty(), "not in must-fail: {missing:?}");
}

#[test]
fn each_edit_of_the_rules_is_named() {
    let document = document();
    let unnamed = |name: &String| !document.contains(&format!("`{name}`"));
    let unnamed: Vec<_> = names(MUST_FAIL).into_iter().filter(unnamed).collect();
    assert!(unnamed.is_empty(), "{unnamed:?}");
}

#[test]
fn what_a_row_does_not_say_is_told() {
    let row = Row {
        name: "two-calls".to_owned(),
        frames: 10,
        calls: ["C 1", "C 2"].map(String::from).to_vec(),
        broken: "kept".to_owned(),
    };
    let held = |breaks: [&str; 3]| hold(&row, &breaks.map(String::from));
    assert_eq!(held(["2 kept: so", "", ""]), Ok(()));
    for breaks in [
        ["", "", ""],
        ["1 kept: so", "", ""],
        ["2 counted: so", "", ""],
        ["2 kept: so", "1 kept: so", ""],
        ["2 kept: so", "", "1 kept: so"],
    ] {
        assert!(held(breaks).is_err(), "{breaks:?}");
    }
}

#[test]
fn a_program_that_does_not_compile_is_told() {
    let text = "file: src/rules.rs\nold: places.fill(0);\nnew: places.fill(none);\n";
    let built = Program::build("not-a-program", &edit::parse(text).unwrap());
    let told = built.err().expect("no program");
    assert!(told.contains("cannot find value `none`"), "{told}");
}
