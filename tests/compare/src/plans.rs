//! Lists of requests by which a guest comes to use a page by its virtual address: the host and the guest write the entries that their page
//! tables lack, and the guest then opens the page, reads it or writes to it.

use common::layout::{address, gpa_of, is_present, FRAME_WORDS, LEAF, MERGEABLE, PRIVATE, SHARED};
use common::page_tables::{entry, index, virtual_address, GUEST_END, LEVELS};
use second::{Call, Request, Virtual};

use crate::random::Random;
use crate::requests::distorted;
use crate::state::State;
use crate::walks;

/// Of a hundred requests for the page, so many have numbers changed.
const WRONG: u64 = 15;

/// A page of a guest, and what its type is to it.
#[derive(Clone, Copy)]
struct Page {
    asid: u64,
    gpa: u64,
    frame: usize,
    kind: u64,
    open: bool,
    fixed: bool,
}

/// Indexes of a virtual address: that of the three upper levels, and that of the last.
const INDEXES: [[usize; 2]; 6] = [[0, 1], [0, 2], [0, 511], [3, 0], [255, 7], [256, 1]];

/// A list for this state. It is empty where no guest has a page for its table.
pub fn list(random: &mut Random, state: &State) -> Vec<Request> {
    let pages = pages(state);
    let Some(page) = page(random, &pages) else {
        return Vec::new();
    };
    let Some((host, table)) = tables(random, state, &pages, page) else {
        return Vec::new();
    };
    let [upper, last] = indexes(random, state, table, page);
    let to = |indexes| Virtual {
        caller: page.asid,
        root: table.gpa,
        root_type: table.kind,
        host_root: address(host),
        va: virtual_address(indexes),
    };
    let mut requests = host_writes(random, state, host, [table, page]);
    requests.extend(guest_write(state, table, upper, table, None));
    // once the table is in itself, the guest can write to it by virtual address
    let itself = random.chance(40).then_some(to([upper; 4]));
    requests.extend(guest_write(state, table, last, page, itself));
    requests.extend(uses(random, state, to([upper, upper, upper, last]), page));
    requests
}

/// Any of these pages, one that is not open as often as not.
fn page(random: &mut Random, pages: &[Page]) -> Option<Page> {
    let closed: Vec<Page> = pages.iter().copied().filter(|page| !page.open).collect();
    let pages = match closed.is_empty() || random.chance(50) {
        true => pages,
        false => &closed,
    };
    random.try_pick(pages)
}

/// Indexes that the table has an entry for already, if it can't be written; and else any.
fn indexes(random: &mut Random, state: &State, table: Page, page: Page) -> [usize; 2] {
    let words = state.frame(table.frame).unwrap_or_default();
    let has = |index: usize, page: Page| words.get(index) == Some(&entry(page.gpa, page.kind));
    let there = |&&[upper, last]: &&[usize; 2]| has(upper, table) && has(last, page);
    match INDEXES.iter().find(there) {
        Some(&found) if table.fixed => found,
        _ => random.pick(&INDEXES),
    }
}

/// The pages of guests that a walk can be about: those of entries, and those of guests in fixed pages.
fn pages(state: &State) -> Vec<Page> {
    let mut pages = Vec::new();
    for frame in 0..state.n() {
        let found = state.entry(frame);
        let (kind, fixed) = (found.kind, found.fixed);
        let page = |asid, gpa| Page {
            asid,
            gpa,
            frame,
            kind,
            open: found.validated,
            fixed,
        };
        match kind {
            PRIVATE | MERGEABLE if !fixed => pages.push(page(found.asid, found.address)),
            SHARED | LEAF => {}
            _ => {
                let words = (0..).zip(state.leaf(found).unwrap_or_default());
                let places = words.filter(|(_, &word)| is_present(word));
                pages.extend(places.map(|(asid, &word)| page(asid, gpa_of(word))));
            }
        }
    }
    pages.retain(|page| page.gpa < GUEST_END);
    pages
}

/// The frame of the host's table, the last of memory if it has no entry; and a page of the guest for its table, now and then a SHARED one.
fn tables(random: &mut Random, state: &State, pages: &[Page], page: Page) -> Option<(usize, Page)> {
    let shared = state.roles().shared;
    let host = match state.m() > state.n() {
        true => state.m() - 1,
        false => *shared.first()?,
    };
    if let (true, Some(frame)) = (random.chance(15), random.try_pick(&shared)) {
        let (gpa, kind, fixed) = (address(frame), SHARED, false);
        #[rustfmt::skip]
        let table = Page { gpa, frame, kind, fixed, open: true, ..page };
        return Some((host, table));
    }
    let own = pages.iter().copied();
    let own: Vec<Page> = own
        .filter(|own| own.asid == page.asid && own.open)
        .collect();
    Some((host, random.try_pick(&own)?))
}

/// The host writes the entries for these pages that its table lacks, word by word or as a whole page. It is one table for all levels.
fn host_writes(random: &mut Random, state: &State, host: usize, pages: [Page; 2]) -> Vec<Request> {
    let mut words = state.frame(host).unwrap_or_default().to_vec();
    let (caller, gpa, hpa) = (0, 0, address(host));
    let mut writes = Vec::new();
    for page in pages {
        let [upper @ .., last] = LEVELS.map(|level| index(page.gpa, level));
        let itself = upper.map(|index| (index, entry(hpa, SHARED)));
        let below = (last, entry(address(page.frame), page.kind));
        for (index, value) in itself.into_iter().chain([below]) {
            if words.get(index).is_some_and(|&word| word != value) {
                words[index] = value;
                writes.push(write(caller, gpa, hpa, SHARED, index, value));
            }
        }
    }
    match writes.len() > 2 && words.len() == FRAME_WORDS && random.chance(50) {
        #[rustfmt::skip]
        true => vec![Request::PageWrite { caller, gpa, hpa, words }],
        false => writes,
    }
}

/// The guest writes the entry for a page to a word of its table, if it is not there; by virtual address, if the table's is given.
fn guest_write(
    state: &State,
    table: Page,
    index: usize,
    page: Page,
    at: Option<Virtual>,
) -> Option<Request> {
    let value = entry(page.gpa, page.kind);
    let there = state.frame(table.frame)?.get(index) == Some(&value);
    if there || table.fixed {
        return None;
    }
    let (caller, gpa, hpa) = (table.asid, table.gpa, address(table.frame));
    let index64 = index as u64;
    Some(match at {
        #[rustfmt::skip]
        Some(at) => Request::WriteVa { at, index: index64, value },
        None => write(caller, gpa, hpa, table.kind, index, value),
    })
}

fn write(caller: u64, gpa: u64, hpa: u64, kind: u64, index: usize, value: u64) -> Request {
    Request::Call(Call::Write {
        caller,
        gpa,
        hpa,
        gtype: kind,
        ntype: kind,
        index: index as u64,
        value,
    })
}

/// What the guest does with the page: it opens one that is not open yet, and else any of the four.
fn uses(random: &mut Random, state: &State, at: Virtual, page: Page) -> Vec<Request> {
    let kind = page.kind;
    let open = (!page.open).then_some(Request::PvalidateVa { at, kind });
    let count = 1 + random.index(4);
    let others = (0..count).map(|_| walks::to(random, at));
    let mut requests: Vec<Request> = open.into_iter().chain(others).collect();
    for request in &mut requests {
        if random.chance(WRONG) {
            *request = distorted(random, state, request);
        }
    }
    requests
}
