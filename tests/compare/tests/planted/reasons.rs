//! Faults in what is said to be bad in an entry.

use common::layout::{
    self, address, frame_of, Entry, ADDRESS_END, FRAME_BYTES, LEAF, PRIVATE, SHARED,
};
use second::{page_check, Answer, Call, Reply};

use crate::monitors::{bad, entry, Planted};
use crate::pages::{Fault, PlantedPage};

fn is_address(number: u64) -> bool {
    number < ADDRESS_END && number.is_multiple_of(FRAME_BYTES)
}

fn has_wrong_asid(entry: Entry) -> bool {
    match entry.kind {
        SHARED | LEAF => entry.asid != 0,
        _ => !(1..512).contains(&entry.asid),
    }
}

fn has_wrong_flags(entry: Entry) -> bool {
    match entry.kind {
        SHARED | LEAF => entry.validated || entry.fixed,
        PRIVATE => entry.fixed,
        _ => entry.fixed && !entry.validated,
    }
}

/// The same answer with two reasons in each other's place.
fn exchanged(answer: Answer, one: u8, two: u8) -> Answer {
    match answer {
        Answer::Refused { number: 5, reason } if reason == one => bad(two),
        Answer::Refused { number: 5, reason } if reason == two => bad(one),
        answer => answer,
    }
}

/// The refusal for the entry of the frame at an address, if it is bad.
fn bad_at(hpa: u64, table: &[u64], memory: &[u64]) -> Option<Answer> {
    let answer = page_check(table, memory, 0, 0, hpa);
    is_bad(answer).then_some(answer)
}

fn is_bad(answer: Answer) -> bool {
    matches!(answer, Answer::Refused { number: 5, .. })
}

/// 5 with no reason at all.
fn without_reason(answer: Answer) -> Answer {
    match is_bad(answer) {
        true => bad(0),
        false => answer,
    }
}

/// 12 with what is bad in the entry of a leaf, if anything is.
fn with_reason_of(leaf: u64, table: &[u64], memory: &[u64]) -> Answer {
    let reason = match bad_at(leaf, table, memory) {
        Some(Answer::Refused { reason, .. }) => reason,
        _ => 0,
    };
    #[rustfmt::skip]
    let answer = Answer::Refused { number: 12, reason };
    answer
}

pub const FAULTS: [Planted; 20] = [
    Planted {
        name: "reasons 1 and 2 are exchanged",
        make: |call, table, memory| exchanged(call.make(table, memory), 1, 2),
    },
    Planted {
        name: "reasons 2 and 3 are exchanged",
        make: |call, table, memory| exchanged(call.make(table, memory), 2, 3),
    },
    Planted {
        name: "reasons 3 and 4 are exchanged",
        make: |call, table, memory| exchanged(call.make(table, memory), 3, 4),
    },
    Planted {
        name: "RMPUPDATE looks at the ASID before the spare bits",
        make: |call, table, memory| match (call.make(table, memory), *call) {
            (answer, Call::Rmpupdate { hpa, .. })
                if answer == bad(1) && has_wrong_asid(entry(table, hpa)) =>
            {
                bad(2)
            }
            (answer, _) => answer,
        },
    },
    Planted {
        name: "PUNFIX looks at the flags before the ASID",
        make: |call, table, memory| match (call.make(table, memory), *call) {
            (answer, Call::Punfix { hpa, .. })
                if answer == bad(2) && has_wrong_flags(entry(table, hpa)) =>
            {
                bad(3)
            }
            (answer, _) => answer,
        },
    },
    Planted {
        name: "READ looks at the address before the flags",
        make: |call, table, memory| match (call.make(table, memory), *call) {
            (answer, Call::Read { hpa, .. })
                if answer == bad(3) && !is_address(entry(table, hpa).address) =>
            {
                bad(4)
            }
            (answer, _) => answer,
        },
    },
    Planted {
        name: "the upper bits of a wrong ASID are spare bits",
        make: |call, table, memory| match (call.make(table, memory), *call) {
            (answer, Call::Pvalidate { hpa, .. })
                if answer == bad(2) && entry(table, hpa).asid >= 512 =>
            {
                bad(1)
            }
            (answer, _) => answer,
        },
    },
    Planted {
        name: "the upper bits of word 1 are spare bits",
        make: |call, table, memory| match (call.make(table, memory), *call) {
            (answer, Call::Write { hpa, .. })
                if answer == bad(4) && entry(table, hpa).address >= ADDRESS_END =>
            {
                bad(1)
            }
            (answer, _) => answer,
        },
    },
    Planted {
        name: "PRIVATE and FIXED is a wrong ASID",
        make: |call, table, memory| match (call.make(table, memory), *call) {
            (answer, Call::Read { hpa, .. })
                if answer == bad(3) && entry(table, hpa).kind == PRIVATE =>
            {
                bad(2)
            }
            (answer, _) => answer,
        },
    },
    Planted {
        name: "a leaf that is not below N is a wrong flag",
        make: |call, table, memory| match (call.make(table, memory), *call) {
            (answer, Call::Punfix { hpa, .. })
                if answer == bad(4) && is_address(entry(table, hpa).address) =>
            {
                bad(3)
            }
            (answer, _) => answer,
        },
    },
    Planted {
        name: "PFIX gives the reason of the frame named second",
        make: |call, table, memory| match (call.make(table, memory), *call) {
            (answer, Call::Pfix { leaf, .. }) if is_bad(answer) => {
                bad_at(leaf, table, memory).unwrap_or(answer)
            }
            (answer, _) => answer,
        },
    },
    Planted {
        name: "PMERGE gives the reason of the lower frame",
        make: |call, table, memory| match (call.make(table, memory), *call) {
            (answer, Call::Pmerge { hpa1, hpa2, .. }) if is_bad(answer) && hpa2 < hpa1 => {
                bad_at(hpa2, table, memory).unwrap_or(answer)
            }
            (answer, _) => answer,
        },
    },
    Planted {
        name: "PUNMERGE gives the reason of the frame named second",
        make: |call, table, memory| match (call.make(table, memory), *call) {
            (answer, Call::Punmerge { hpa2, .. }) if is_bad(answer) => {
                bad_at(hpa2, table, memory).unwrap_or(answer)
            }
            (answer, _) => answer,
        },
    },
    Planted {
        name: "PVALIDATE drops the reason",
        make: |call, table, memory| match (call.make(table, memory), call) {
            (answer, Call::Pvalidate { .. }) => without_reason(answer),
            (answer, _) => answer,
        },
    },
    Planted {
        name: "PMERGE drops the reason of the frame named second",
        make: |call, table, memory| match (call.make(table, memory), *call) {
            (answer, Call::Pmerge { hpa1, .. }) if bad_at(hpa1, table, memory).is_none() => {
                without_reason(answer)
            }
            (answer, _) => answer,
        },
    },
    Planted {
        name: "CENSUS drops the reason",
        make: |call, table, memory| match (call.make(table, memory), call) {
            (answer, Call::Census { .. }) => without_reason(answer),
            (answer, _) => answer,
        },
    },
    Planted {
        name: "CENSUS gives the reason of the last bad frame",
        make: |call, table, memory| match (call.make(table, memory), call) {
            (answer, Call::Census { .. }) if is_bad(answer) => {
                let mut frames = (0..layout::n(table)).rev();
                let last = frames.find_map(|frame| bad_at(address(frame), table, memory));
                last.unwrap_or(answer)
            }
            (answer, _) => answer,
        },
    },
    Planted {
        name: "PUNFIX gives 12 with the reason of the leaf's entry",
        make: |call, table, memory| match (call.make(table, memory), *call) {
            (Answer::Refused { number: 12, .. }, Call::Punfix { hpa, .. }) => {
                with_reason_of(entry(table, hpa).address, table, memory)
            }
            (answer, _) => answer,
        },
    },
    Planted {
        name: "READ gives 12 with the reason of the leaf's entry",
        make: |call, table, memory| match (call.make(table, memory), *call) {
            (Answer::Refused { number: 12, .. }, Call::Read { hpa, .. }) => {
                with_reason_of(entry(table, hpa).address, table, memory)
            }
            (answer, _) => answer,
        },
    },
    Planted {
        name: "WRITE from N on is refused with 6 for a reason",
        make: |call, table, memory| match (call.make(table, memory), *call) {
            (Answer::Refused { number: 6, .. }, Call::Write { hpa, .. })
                if frame_of(hpa) >= layout::n(table) =>
            {
                #[rustfmt::skip]
                let answer = Answer::Refused { number: 6, reason: 4 };
                answer
            }
            (answer, _) => answer,
        },
    },
];

pub const PAGE_FAULTS: [PlantedPage; 3] = [
    PlantedPage {
        name: "page_read does not tell the reason",
        fault: Fault::Read(|[caller, gpa, hpa], table, memory| {
            match second::page_read(table, memory, caller, gpa, hpa) {
                [] => Reply::Answer(without_reason(page_check(table, memory, caller, gpa, hpa))),
                page => Reply::Page(page),
            }
        }),
    },
    PlantedPage {
        name: "page_check tells one reason for another",
        fault: Fault::Check(|[caller, gpa, hpa], table, memory| {
            exchanged(page_check(table, memory, caller, gpa, hpa), 1, 4)
        }),
    },
    PlantedPage {
        name: "page_write drops the reason",
        fault: Fault::Write(|page| without_reason(page.write())),
    },
];
