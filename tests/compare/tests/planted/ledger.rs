//! Faults that both monitors have, so that they agree: the ledger of the histories has to find them.

use common::layout::{frame_of, gpa_of, present, Entry, LEAF, MERGEABLE};
use compare::counts::Counts;
use compare::histories;
use compare::monitor::Monitor;
use compare::report::Report;
use compare::run::{CALLS, SEED};
use compare::table::Table;
use second::{Answer, Call};

use crate::changes;
use crate::monitors::{entry, leaf_word, refused, words, Planted};
use crate::pages::{self, Fault, PlantedPage};
use crate::{reasons, refusals, walks};

/// What is found in as many requests as histories have in a run.
fn found(fault: &dyn Monitor) -> Option<Box<Report>> {
    let (mut table, mut counts) = (Table::new(), Counts::default());
    let requests = CALLS / 10 * 3;
    histories::compare([fault, fault], SEED, requests, &mut table, &mut counts).err()
}

/// The fault is found, and what is claimed has these words in it.
fn is_found(fault: &dyn Monitor, words: &str) {
    let name = fault.name();
    let report = found(fault).unwrap_or_else(|| panic!("not found: {name}"));
    let claim = report.finding.claim.as_deref();
    let claim = claim.unwrap_or_else(|| panic!("{name}:\n{report}"));
    assert!(claim.contains(words), "{name}:\n{report}");
    let (requests, (_, memory)) = (report.case.requests.len(), report.words());
    assert!(requests <= 16 && memory <= 2, "not small: {name}\n{report}");
    assert!(
        report.case.start.table.iter().all(|&word| word == 0),
        "a history starts empty"
    );
}

#[test]
fn an_old_copy_that_a_guest_left_can_be_read() {
    let fault = Planted {
        name: "READ of a fixed page answers where the guest has no place (13)",
        make: |call, table, memory| match (call.make(table, memory), *call) {
            (Answer::Refused { number: 13, .. }, Call::Read { hpa, index, .. }) => {
                Answer::Word(memory[words(hpa)][index as usize])
            }
            (answer, _) => answer,
        },
    };
    // which claim breaks first depends on the guest: one that was unmerged, or one that never was there
    let report = found(&fault).expect("the fault is found");
    assert!(report.finding.claim.is_some(), "{report}");
}

/// The fault that was paid for. A guest that was unmerged writes to its own copy, and then reads the old one through the fixed page.
#[test]
fn a_counter_that_goes_back_is_found() {
    let fault = Planted {
        name: "PUNMERGE clears bit 0 of the leaf word alone, and READ takes a word that is not 0 for present",
        make: |call, table, memory| {
            let before = memory.to_vec();
            match (call.make(table, memory), *call) {
                (Answer::Done, Call::Punmerge { hpa1, asid, .. }) => {
                    let word = leaf_word(table, hpa1, asid);
                    memory[word] = gpa_of(before[word]);
                    Answer::Done
                }
                #[rustfmt::skip]
                (Answer::Refused { number: 13, .. }, Call::Read { caller, gpa, hpa, index, .. }) => {
                    match memory[leaf_word(table, hpa, caller)] {
                        word if word != 0 && word == gpa => {
                            Answer::Word(memory[words(hpa)][index as usize])
                        }
                        _ => refused(13),
                    }
                }
                (answer, _) => answer,
            }
        },
    };
    is_found(&fault, "was last written");
}

#[test]
fn a_page_that_is_not_open_can_be_read() {
    let fault = Planted {
        name: "READ does not check VALIDATED (9)",
        make: |call, table, memory| match (call.make(table, memory), *call) {
            (Answer::Refused { number: 9, .. }, Call::Read { hpa, index, .. }) => {
                Answer::Word(memory[words(hpa)][index as usize])
            }
            (answer, _) => answer,
        },
    };
    is_found(&fault, "");
}

#[test]
fn an_owner_that_writes_to_a_merged_page() {
    let fault = Planted {
        name: "WRITE lets the owner of a fixed page write to it",
        make: |call, table, memory| match (call.make(table, memory), *call) {
            (
                Answer::Refused { number: 10, .. },
                Call::Write {
                    caller,
                    gpa,
                    hpa,
                    index,
                    value,
                    ..
                },
            ) => {
                let own = entry(table, hpa).asid == caller;
                if own && memory[leaf_word(table, hpa, caller)] == present(gpa) {
                    memory[words(hpa)][index as usize] = value;
                    return Answer::Done;
                }
                refused(10)
            }
            (answer, _) => answer,
        },
    };
    is_found(&fault, " was ");
}

#[test]
fn a_write_that_is_lost() {
    let fault = Planted {
        name: "WRITE of word 3 changes nothing",
        make: |call, table, memory| match *call {
            Call::Write { index: 3, .. } => {
                let mut copy = memory.to_vec();
                call.make(table, &mut copy)
            }
            _ => call.make(table, memory),
        },
    };
    is_found(&fault, "was last written");
}

#[test]
fn places_that_are_lost_or_made_up() {
    for name in [
        "PMERGE leaves the merged entry as it was",
        "PUNMERGE does not set VALIDATED",
        "PUNMERGE leaves the leaf word",
        "RMPUPDATE keeps VALIDATED where no field is new",
        "RMPUPDATE tells the new address as the closed one",
        "PVALIDATE answers opened always",
        "PUNFIX keeps the old owner",
    ] {
        let fault = changes::FAULTS.iter().find(|fault| fault.name == name);
        is_found(fault.expect("a fault of this name"), "openings");
    }
}

/// The guest that a page is unfixed to finds its own words there.
#[test]
fn words_that_are_lost_with_the_owner() {
    let name = "PUNFIX zeroes the page that becomes another guest's";
    let fault = changes::FAULTS.iter().find(|fault| fault.name == name);
    // what is merged, unmerged and unfixed before it shows can't always be made as short as elsewhere
    let report = found(fault.expect("a fault of this name")).expect("the fault is found");
    let claim = report.finding.claim.as_deref().unwrap_or_default();
    assert!(claim.contains(" was "), "{report}");
}

#[test]
fn a_guest_that_is_left_out_where_a_page_is_unfixed() {
    let name = "PUNFIX gives 17 from three present words on";
    let fault = refusals::FAULTS.iter().find(|fault| fault.name == name);
    is_found(fault.expect("a fault of this name"), "openings");
}

#[test]
fn a_history_that_meets_5_or_12() {
    let fault = Planted {
        name: "PUNMERGE keeps the FIXED flag of the copy",
        make: |call, table, memory| {
            let answer = call.make(table, memory);
            if let (Answer::Done, Call::Punmerge { hpa2, .. }) = (answer, *call) {
                let copy = Entry {
                    fixed: true,
                    ..entry(table, hpa2)
                };
                copy.put(table, frame_of(hpa2));
            }
            answer
        },
    };
    assert!(found(&fault).is_some());
    let fault = Planted {
        name: "PFIX of a fixed page gives 12",
        make: |call, table, memory| match (call.make(table, memory), call) {
            (Answer::Refused { number: 10, .. }, Call::Pfix { .. }) => refused(12),
            (answer, _) => answer,
        },
    };
    is_found(&fault, "never meets 12");
}

/// A disk driver's page gets into a guest's own: to the two monitors it is one more page that is written.
#[test]
fn a_guests_page_that_is_written_whole() {
    let fault = PlantedPage {
        name: "page_write writes to a MERGEABLE page (6 is skipped)",
        fault: Fault::Write(|page| match (page.write(), page.kind()) {
            (Answer::Refused { number: 6, .. }, Some(MERGEABLE)) => {
                page.overwrite();
                Answer::Done
            }
            (answer, _) => answer,
        }),
    };
    is_found(&fault, " was ");
}

#[test]
fn a_leaf_that_is_written_whole() {
    let fault = PlantedPage {
        name: "page_write writes to a LEAF (6 is skipped)",
        fault: Fault::Write(|page| match (page.write(), page.kind()) {
            (Answer::Refused { number: 6, .. }, Some(LEAF)) => {
                page.overwrite();
                Answer::Done
            }
            (answer, _) => answer,
        }),
    };
    // places that are lost or made up, or a word that is misshapen
    let report = found(&fault).expect("the fault is found");
    assert!(report.finding.claim.is_some(), "{report}");
}

/// Which answers a call can have at all, the ledger knows too.
#[test]
fn a_reason_with_another_refusal() {
    let name = "WRITE from N on is refused with 6 for a reason";
    let fault = reasons::FAULTS.iter().find(|fault| fault.name == name);
    is_found(fault.expect("a fault of this name"), "no answer to this");
}

/// And which replies a page can have.
#[test]
fn replies_that_no_page_can_have() {
    for name in [
        "page_read hands back 511 words",
        "page_check is the host's alone (3)",
    ] {
        let fault = pages::FAULTS.iter().find(|fault| fault.name == name);
        is_found(fault.expect("a fault of this name"), "no answer to this");
    }
}

/// What a call by virtual address brings is held against what its walk finds.
#[test]
fn faults_in_calls_by_virtual_address() {
    for (name, words) in [
        ("the guest address is not named", "the walk yields"),
        ("the virtual address is named", "the walk yields"),
        (
            "the guest's tables need not be open",
            "the walk is refused with 9",
        ),
        ("READ by virtual address does not check VALIDATED (9)", ""),
        ("WRITE by virtual address is lost", "was last written"),
        (
            "PVALIDATE by virtual address answers opened always",
            "openings",
        ),
    ] {
        is_found(walks::named(name), words);
    }
}

#[test]
fn no_fault_is_found_where_there_is_none() {
    let (mut table, mut counts) = (Table::new(), Counts::default());
    let monitors: [&dyn Monitor; 2] = [&compare::monitor::Proved, &compare::monitor::Second];
    let run = histories::compare(monitors, SEED, 60_000, &mut table, &mut counts);
    assert!(run.is_ok_and(|()| counts.faults().is_empty()));
}
