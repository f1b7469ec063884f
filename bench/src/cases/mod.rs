//! What is measured: a name, and a function that measures it in a world of N frames.

mod access;
mod assignment;
mod census;
mod fixing;
mod merging;
mod pages;
mod refused;
mod spread;
mod tables;
mod walks;

use crate::meter::{Expect, Meter, Samples};
use crate::scene::Turn;

/// A measurement of one kind of call.
#[derive(Clone, Copy)]
pub struct Case {
    pub name: &'static str,
    pub measure: fn(&Meter, usize) -> Samples,
}

/// A measurement by its name, what has to be answered, and the function that prepares its scene.
macro_rules! case {
    ($name:literal, $expect:expr, $prepare:path) => {
        Case {
            name: $name,
            measure: |meter, n| meter.calls(n, $expect, $prepare),
        }
    };
}

/// Turns over warm frames are made this many a pass: the same few frames in turn.
const TURNS: usize = 32;

/// Accepted calls, on warm frames.
pub const ACCEPTED: [Case; 24] = [
    case!(
        "RMPUPDATE, the ASID stays",
        Expect::Accepted,
        assignment::stays
    ),
    case!(
        "RMPUPDATE, the ASID changes",
        Expect::Accepted,
        assignment::changes
    ),
    case!("PVALIDATE, opened", Expect::Accepted, assignment::opened),
    case!(
        "PFIX, uniform table",
        Expect::Accepted,
        fixing::fixed_uniform
    ),
    case!("PFIX, mixed table", Expect::Accepted, fixing::fixed_mixed),
    case!("PMERGE", Expect::Accepted, merging::merged),
    case!("PUNMERGE", Expect::Accepted, merging::unmerged),
    case!(
        "PUNFIX, the owner is left",
        Expect::Accepted,
        fixing::owner_left
    ),
    case!(
        "PUNFIX, another is left",
        Expect::Accepted,
        fixing::another_left
    ),
    case!(
        "PUNFIX, nobody is left",
        Expect::Accepted,
        fixing::nobody_left
    ),
    case!("READ, own page", Expect::Accepted, access::read_own),
    case!("READ, merged page", Expect::Accepted, access::read_merged),
    case!("READ, SHARED frame", Expect::Accepted, access::read_shared),
    case!("WRITE, own page", Expect::Accepted, access::write_own),
    case!("CENSUS, uniform table", Expect::Accepted, census::uniform),
    case!("CENSUS, mixed table", Expect::Accepted, census::mixed),
    case!("page_check", Expect::Accepted, pages::check),
    case!("page_read", Expect::Accepted, pages::read),
    case!("page_write", Expect::Accepted, pages::write),
    case!("walk, PRIVATE tables", Expect::Accepted, walks::found),
    case!(
        "walk, tables in a merged page",
        Expect::Accepted,
        walks::found_merged
    ),
    case!("pvalidate_va, opened", Expect::Accepted, walks::opened),
    case!("read_va, own page", Expect::Accepted, walks::read),
    case!("write_va, own page", Expect::Accepted, walks::write),
];

/// Refused calls, on warm frames.
pub const REFUSED: [Case; 26] = [
    case!(
        "PMERGE, 16: the last word differs",
        Expect::Refused(16),
        merging::last_differs
    ),
    case!(
        "PMERGE, 16: the first word differs",
        Expect::Refused(16),
        merging::first_differs
    ),
    case!(
        "PMERGE, 16: all words differ",
        Expect::Refused(16),
        merging::all_differ
    ),
    case!(
        "PUNFIX, 17: the last word is present too",
        Expect::Refused(17),
        fixing::last_present
    ),
    case!(
        "PUNFIX, 17: the next word is present too",
        Expect::Refused(17),
        fixing::next_present
    ),
    case!("RMPUPDATE, 3", Expect::Refused(3), refused::rmpupdate),
    case!("PVALIDATE, 3", Expect::Refused(3), refused::pvalidate),
    case!("PFIX, 3", Expect::Refused(3), refused::pfix),
    case!("PMERGE, 3", Expect::Refused(3), refused::pmerge),
    case!("PUNMERGE, 3", Expect::Refused(3), refused::punmerge),
    case!("PUNFIX, 3", Expect::Refused(3), refused::punfix),
    case!("READ, 3", Expect::Refused(3), refused::read),
    case!("WRITE, 3", Expect::Refused(3), refused::write),
    case!("CENSUS, 2", Expect::Refused(2), refused::census),
    case!("READ, 5", Expect::Refused(5), refused::read_bad),
    case!(
        "CENSUS, 5 at the first frame",
        Expect::Refused(5),
        refused::census_bad
    ),
    case!("page_check, 6", Expect::Refused(6), pages::check_owned),
    case!("page_read, 6", Expect::Refused(6), pages::read_owned),
    case!("page_write, 6", Expect::Refused(6), pages::write_owned),
    case!(
        "page_write, 2: a run of 511 words",
        Expect::Refused(2),
        pages::write_short
    ),
    case!(
        "walk, 18 in the guest's last table",
        Expect::Refused(18),
        walks::absent
    ),
    case!(
        "walk, 19 in the guest's top table",
        Expect::Refused(19),
        walks::large
    ),
    case!(
        "walk, 2: no virtual address",
        Expect::Refused(2),
        walks::no_address
    ),
    case!("pvalidate_va, 6", Expect::Refused(6), walks::validate_other),
    case!("read_va, 9", Expect::Refused(9), walks::read_closed),
    case!("write_va, 10", Expect::Refused(10), walks::write_fixed),
];

/// Accepted calls, each on another frame, over all frames of the table in random order.
pub const SPREAD: [Case; 5] = [
    case!("READ, own page", Expect::Accepted, spread::read_own),
    case!("WRITE, own page", Expect::Accepted, spread::write_own),
    case!("RMPUPDATE, the ASID stays", Expect::Accepted, spread::stays),
    case!(
        "RMPUPDATE, the ASID changes",
        Expect::Accepted,
        spread::changes
    ),
    case!("PMERGE", Expect::Accepted, spread::merged),
];

/// The same turns over and over, as many as a pass has.
fn repeated<C: Copy, const T: usize, const M: usize>(
    turns: Vec<Turn<C, T, M>>,
) -> Vec<Turn<C, T, M>> {
    turns.iter().copied().cycle().take(TURNS).collect()
}

/// A call that can be made again and again, on each of these frames in turn.
fn steady<C: Copy>(frames: usize, call: impl Fn(usize) -> C) -> Vec<Turn<C, 0, 0>> {
    repeated((0..frames).map(|frame| Turn::steady(call(frame))).collect())
}
