//! Every planted fault is found by the sequences of part (b) within the default effort, and what is printed for it is small.

use std::cell::Cell;

use common::layout::{memory_words, table_words};
use compare::monitor::{Monitor, Second};
use compare::report::Report;
use compare::run::{CALLS, SEED};
use compare::sequences;
use compare::table::Table;
use second::{Reply, Request};

use crate::monitors::refused;
use crate::{changes, pages, reasons, refusals, walks};

/// What is found when the fault stands on this side.
fn found(fault: &dyn Monitor, side: usize) -> Option<Box<Report>> {
    let mut monitors: [&dyn Monitor; 2] = [&Second, &Second];
    monitors[side] = fault;
    sequences::compare(monitors, SEED, CALLS / 2, &mut Table::new()).err()
}

/// How many frames, and how many words of memory that are not zero, are small.
type Small = (usize, usize);

/// What is wrong with what was found, if anything is.
fn complaint(fault: &dyn Monitor, report: &Report, (frames, most): Small) -> Option<String> {
    let (table, memory) = report.words();
    // a fault of a size shows at that size alone
    let sized = fault.name().contains(",");
    let small = report.case.requests.len() == 1
        && table <= 6
        && memory <= most
        && (sized || report.case.start.n().max(report.case.start.m()) <= frames)
        && report.to_string().lines().count() <= 22 + most;
    (!small).then(|| format!("not small: {}\n{report}", fault.name()))
}

fn all_are_found<Fault: Monitor>(faults: &[Fault]) {
    all_are_found_in(faults, (4, 3));
}

fn all_are_found_in<Fault: Monitor>(faults: &[Fault], small: Small) {
    let mut complaints = Vec::new();
    for (number, fault) in faults.iter().enumerate() {
        match found(fault, number % 2) {
            None => complaints.push(format!("not found: {}", fault.name())),
            Some(report) => complaints.extend(complaint(fault, &report, small)),
        }
    }
    assert!(complaints.is_empty(), "{}", complaints.join("\n"));
}

#[test]
fn faults_in_refusals_are_found() {
    all_are_found(&refusals::FAULTS);
}

#[test]
fn faults_in_reasons_are_found() {
    all_are_found(&reasons::FAULTS);
    all_are_found(&reasons::PAGE_FAULTS);
}

#[test]
fn faults_in_changes_are_found() {
    all_are_found(&changes::FAULTS);
}

#[test]
fn faults_in_whole_pages_are_found() {
    all_are_found(&pages::FAULTS);
}

/// The entries of the page tables on the way are words of memory too.
#[test]
fn faults_in_walks_are_found() {
    all_are_found_in(&walks::FAULTS, (6, 16));
}

/// Walks are compared wherever they can stop, not only at their beginning. Where no fault is planted, there is none.
#[test]
fn walks_stop_everywhere() {
    let noting = walks::Noting::default();
    let run = sequences::compare_walks([&noting, &Second], SEED, CALLS / 10, &mut Table::new());
    assert!(run.is_ok());
    let stops = noting.0.borrow();
    let mut never = Vec::new();
    for (place, numbers) in walks::stops() {
        let met = |number: &&u8| stops.contains(&(place, **number));
        let missing = numbers.iter().filter(|number| !met(number));
        never.extend(missing.map(|number| (place, *number)));
    }
    assert!(never.is_empty(), "{never:?}");
}

/// A monitor that keeps something between calls, as no monitor may: it goes wrong at one call, and never again.
struct Once(Cell<u64>);

impl Monitor for Once {
    fn name(&self) -> &str {
        "once"
    }

    fn reply<'m>(&self, request: &Request, table: &mut [u64], memory: &'m mut [u64]) -> Reply<'m> {
        self.0.set(self.0.get() + 1);
        match Second.reply(request, table, memory) {
            _ if self.0.get() == 1000 => Reply::Answer(refused(0)),
            reply => reply,
        }
    }
}

#[test]
fn a_fault_that_does_not_show_again_is_told() {
    let once = Once(Cell::new(0));
    let run = sequences::compare([&once, &Second], SEED, 10_000, &mut Table::new());
    let report = run.expect_err("the fault is found").to_string();
    assert!(
        report.contains("the same calls do not show this again"),
        "{report}"
    );
}

/// What a report has to have in it.
#[test]
fn a_report_says_all_of_it() {
    let fault = &changes::FAULTS[0];
    assert_eq!(fault.name, "PMERGE leaves the merged entry as it was");
    let report = found(fault, 0).expect("the fault is found");
    let (table, memory) = (table_words(3), memory_words(3));
    let start = report.case.start.table.iter().enumerate();
    let set = start.filter(|(_, &word)| word != 0);
    let words: Vec<String> = set
        .map(|(position, word)| format!("    t[{position}] = {word:x}\n"))
        .collect();
    for part in [
        &format!("table of {table} words, memory of {memory};"),
        &words.concat(),
        "calls:\n    M 0 ",
        "    second: done\n",
        "    after it t[",
    ] {
        let report = report.to_string();
        assert!(report.contains(part), "{part:?} is not in\n{report}");
    }
}

/// And where it is about whole pages.
#[test]
fn a_report_says_what_a_page_was() {
    let (next, last) = (&pages::FAULTS[0], &pages::FAULTS[4]);
    assert_eq!(next.name, "page_read hands back the next frame");
    let report = found(next, 0).expect("the fault is found").to_string();
    let lines = [
        "calls:\n    page_read 0 0 0\n",
        "    page_read hands back the next frame: hands back 512 words from m[512*1 + 0] on\n",
        "    second: hands back 512 words from m[512*0 + 0] on\n",
    ];
    assert!(lines.iter().all(|line| report.contains(line)), "{report}");

    assert_eq!(last.name, "page_write writes all words but the last");
    let report = found(last, 1).expect("the fault is found").to_string();
    let lines = ["calls:\n    page_write 0 0 ", " + 511]: second "];
    assert!(lines.iter().all(|line| report.contains(line)), "{report}");
}

/// And where it is about a reason.
#[test]
fn a_report_says_what_the_reason_was() {
    let (name, mut faults) = ("CENSUS drops the reason", reasons::FAULTS.iter());
    let fault = faults.find(|fault| fault.name == name);
    let report = found(fault.expect("a fault of this name"), 0);
    let report = report.expect("the fault is found").to_string();
    let lines = [
        "drops the reason: refused with 5\n",
        "second: refused with 5, reason ",
    ];
    assert!(lines.iter().all(|line| report.contains(line)), "{report}");
}
