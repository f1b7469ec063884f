//! The table of calls by refusals fails a run where a cell is empty that must not be, and the other way round.

use compare::monitor::{Monitor, Proved, Second};
use compare::program::second;
use compare::run::{run, Run};
use second::{page_check, Answer, Call};

use crate::monitors::{bad, refused, Planted};
use crate::pages::{Fault, PlantedPage};
use crate::{reasons, refusals, walks};

/// Few calls in which every cell is met all the same.
const SEED: u64 = 13;
const CALLS: u64 = 100_000;

/// A run in which this monitor stands on both sides, so that there is no difference.
fn run_of(monitor: &dyn Monitor) -> Run {
    run([&second, &second], [monitor, monitor], SEED, CALLS)
}

#[test]
fn a_run_without_faults_passes() {
    let run = run([&second, &second], [&Proved, &Second], SEED, CALLS);
    assert!(run.passed, "{}", run.printed);
    let last = "100000 calls, seed 13, 0 differences, 165 cells and 112 of reasons reached\n";
    assert!(run.printed.ends_with(last), "{}", run.printed);
}

#[test]
fn the_same_seed_and_size_print_the_same() {
    assert_eq!(run_of(&Second).printed, run_of(&Second).printed);
}

#[test]
fn an_empty_cell_fails() {
    // the scripts are right, so what is never met has to be something that they can't meet
    let run = run_of(&Planted {
        name: "CENSUS never gives 12",
        make: |call, table, memory| match (call.make(table, memory), call) {
            (Answer::Refused { number: 12, .. }, Call::Census { .. }) => bad(4),
            (answer, _) => answer,
        },
    });
    assert!(
        !run.passed && run.printed.contains("0 differences"),
        "{}",
        run.printed
    );
    assert!(
        run.printed.contains("never met: CENSUS refused with 12"),
        "{}",
        run.printed
    );
}

#[test]
fn an_empty_cell_of_whole_pages_fails() {
    let run = run_of(&PlantedPage {
        name: "page_check gives 6 for an entry that is not well formed",
        fault: Fault::Check(|[caller, gpa, hpa], table, memory| {
            match page_check(table, memory, caller, gpa, hpa) {
                Answer::Refused { number: 5, .. } => refused(6),
                answer => answer,
            }
        }),
    });
    let cell = "never met: page_check refused with 5";
    assert!(!run.passed && run.printed.contains(cell), "{}", run.printed);
}

#[test]
fn an_empty_cell_of_calls_by_virtual_address_fails() {
    let run = run_of(walks::named("a large page is told as an absent entry"));
    for call in ["walk", "pvalidate_va", "read_va", "write_va"] {
        let cell = format!("never met: {call} refused with 19\n");
        let printed = &run.printed;
        assert!(!run.passed && printed.contains(&cell), "{printed}");
    }
}

#[test]
fn a_cell_that_must_be_empty_fails() {
    let run = run_of(&Planted {
        name: "WRITE to a fixed page looks at the leaf first",
        make: |call, table, memory| match (call.make(table, memory), call) {
            (Answer::Refused { number: 10, .. }, Call::Write { .. }) => refused(13),
            (answer, _) => answer,
        },
    });
    assert!(
        !run.passed && run.printed.contains("0 differences"),
        "{}",
        run.printed
    );
    let cell = "met, and can't be: WRITE refused with 13";
    assert!(run.printed.contains(cell), "{}", run.printed);
}

/// The rule of PUNFIX that left pages stuck, in both monitors.
#[test]
fn an_unfixing_that_is_never_met_fails() {
    let name = "PUNFIX gives 13 where the owner has left";
    let fault = refusals::FAULTS.iter().find(|fault| fault.name == name);
    let run = run_of(fault.expect("a fault of this name"));
    for line in [
        "met, and can't be: PUNFIX refused with 13\n",
        "never met in a history: unfixes to another guest\n",
        "never met in a history: unfixes to nobody\n",
    ] {
        assert!(!run.passed && run.printed.contains(line), "{}", run.printed);
    }
}

#[test]
fn an_empty_cell_of_reasons_fails() {
    let run = run_of(&Planted {
        name: "PUNFIX gives reason 3 for 4",
        make: |call, table, memory| match (call.make(table, memory), call) {
            (answer, Call::Punfix { .. }) if answer == bad(4) => bad(3),
            (answer, _) => answer,
        },
    });
    let cell = "never met: PUNFIX refused with 5, reason 4\n";
    assert!(!run.passed && run.printed.contains(cell), "{}", run.printed);
}

#[test]
fn an_order_of_reasons_that_is_never_met_fails() {
    let run = run_of(&Planted {
        name: "PMERGE gives 6 for an entry that is not well formed",
        make: |call, table, memory| match (call.make(table, memory), call) {
            (Answer::Refused { number: 5, .. }, Call::Pmerge { .. }) => refused(6),
            (answer, _) => answer,
        },
    });
    let cell =
        "never met: PMERGE refused with 5, where the first bad entry has reason 3 and the last 1\n";
    assert!(!run.passed && run.printed.contains(cell), "{}", run.printed);
}

/// 5 with no reason, and another refusal with one.
#[test]
fn a_reason_that_no_refusal_has_fails() {
    for (name, cell) in [
        ("CENSUS drops the reason", "CENSUS refused with 5, reason 0"),
        (
            "PUNFIX gives 12 with the reason of the leaf's entry",
            "PUNFIX refused with 12, reason 4",
        ),
    ] {
        let fault = reasons::FAULTS.iter().find(|fault| fault.name == name);
        let run = run_of(fault.expect("a fault of this name"));
        let cell = format!("met, and can't be: {cell}\n");
        assert!(
            !run.passed && run.printed.contains(&cell),
            "{}",
            run.printed
        );
    }
}

#[test]
fn a_difference_fails() {
    let lost = |text: &[u8]| second(text.strip_suffix(b"\n").unwrap_or_default());
    let run = run([&lost, &second], [&Second, &Second], SEED, CALLS);
    assert!(
        !run.passed && run.printed.contains("1 differences"),
        "{}",
        run.printed
    );
}
