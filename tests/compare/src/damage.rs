//! What can be wrong with a table and its leaves: things that no history of calls brings about.

use common::layout::{
    address, frame_of, gpa_of, present, Entry, ADDRESSES, ADDRESS_END, ENTRY_WORDS, FRAME_BYTES,
    LEAF, MERGEABLE, PRIVATE, SHARED, UNUSED_BITS,
};

use crate::random::Random;
use crate::state::State;

/// What makes a present word of a leaf misshapen.
const NO_ADDRESSES: [u64; 6] = [2, 0x800, 0x50002, ADDRESS_END, 1 << 63, u64::MAX];

/// Damages one word, entry or leaf. The state has the right sizes, or nearly.
pub fn one(random: &mut Random, state: &mut State) {
    let frame = random.index(state.n());
    let roles = state.roles();
    let fixed = random.try_pick(&roles.fixed);
    match (random.below(15), fixed) {
        (0, _) => state.entry_mut(frame)[0] ^= 1 << random.below(64),
        (1, _) => state.entry_mut(frame)[1] ^= 1 << random.below(64),
        // a bit of a field, or one of the two unused bits above them
        (2, _) => state.entry_mut(frame)[0] ^= 1 << random.below(64 - UNUSED_BITS + 2),
        (3, _) => misfit(random, state, frame),
        (4 | 5, Some(page)) => spoil_leaf_entry(random, state, page),
        (6..=8, Some(page)) => spoil_leaf_word(random, state, page),
        (9..=11, Some(page)) => thin_leaf(random, state, page),
        (12, Some(page)) => {
            // two fixed pages with one leaf
            let leaf = state.entry(page).address;
            state.put(frame, Entry::fixed(7, leaf));
        }
        _ => {
            let leaf = wrong_leaf(random, state, frame);
            let guest = random.pick(&[1, 7, 511]);
            state.put(frame, Entry::fixed(guest, leaf));
        }
    }
}

/// Every second entry becomes random words.
pub fn half(random: &mut Random, state: &mut State) {
    for frame in 0..state.n() {
        if random.chance(50) {
            let words = wild(random, state);
            state.entry_mut(frame).copy_from_slice(&words);
        }
    }
}

/// Most entries break one of their four rules or two, each rule as often as any other; what else they say stays.
pub fn rules(random: &mut Random, state: &mut State) {
    for frame in 0..state.n() {
        if random.chance(80) {
            for _ in 0..random.pick(&[1, 1, 2]) {
                let broken = broken(random, state, state.entry(frame));
                state.put(frame, broken);
            }
        }
    }
}

/// The entry with one of its four rules broken, each as often as any other.
pub fn broken(random: &mut Random, state: &State, entry: Entry) -> Entry {
    random.pick(&BREAKS)(random, state, entry)
}

/// How an entry is made to break a rule.
type Break = fn(&mut Random, &State, Entry) -> Entry;

/// By the order of the reasons.
const BREAKS: [Break; 4] = [break_spare_bits, break_asid, break_flags, break_address];

fn break_spare_bits(random: &mut Random, _: &State, entry: Entry) -> Entry {
    let unused = entry.unused | 1 << random.below(UNUSED_BITS);
    Entry { unused, ..entry }
}

fn break_asid(random: &mut Random, _: &State, entry: Entry) -> Entry {
    let asid = match entry.kind {
        SHARED | LEAF => random.pick(&[1, 7, 511, 512]),
        _ => random.pick(&[0, 0, 512, 0xffff]),
    };
    Entry { asid, ..entry }
}

fn break_flags(random: &mut Random, _: &State, entry: Entry) -> Entry {
    let (validated, fixed) = match entry.kind {
        SHARED | LEAF => random.pick(&[(true, false), (false, true), (true, true)]),
        PRIVATE => (entry.validated, true),
        _ => (false, true),
    };
    Entry {
        validated,
        fixed,
        ..entry
    }
}

fn break_address(random: &mut Random, state: &State, entry: Entry) -> Entry {
    let below_n = address(random.index(state.n()));
    let address = match (entry.kind, entry.fixed) {
        (SHARED | LEAF, _) => random.pick(&[FRAME_BYTES, below_n + 1, ADDRESS_END]),
        (_, true) => random.pick(&[address(state.n()), below_n + 1, ADDRESS_END]),
        (_, false) => random.pick(&[below_n + 1, below_n + 0x800, ADDRESS_END, 1 << 63]),
    };
    Entry { address, ..entry }
}

/// Every entry becomes random words, and so does the memory.
pub fn all(random: &mut Random, state: &mut State) {
    let fields = random.chance(60);
    for frame in 0..state.n() {
        let mut words = wild(random, state);
        if !fields {
            words = words.map(|_| random.word());
        }
        state.entry_mut(frame).copy_from_slice(&words);
    }
    state
        .memory
        .iter_mut()
        .for_each(|word| *word = random.word());
}

/// A leaf that is none: the page itself, frame 2, any frame, or one at or above N.
fn wrong_leaf(random: &mut Random, state: &State, frame: usize) -> u64 {
    let (n, m) = (state.n(), state.m());
    let any = random.index(n);
    let last = frame_of(ADDRESS_END - 1);
    address(random.pick(&[frame, 2, any, any, n, n + 1, m - 1, m, last]))
}

/// An entry that just fails to be well formed.
fn misfit(random: &mut Random, state: &mut State, frame: usize) {
    let page = Entry::closed(7, MERGEABLE, FRAME_BYTES).open();
    let fixed = Entry::fixed(7, 0);
    #[rustfmt::skip]
    let misfits = [
        Entry::fixed(7, address(state.n())),
        Entry { validated: false, ..fixed },
        Entry { kind: PRIVATE, ..fixed },
        Entry { asid: 0, ..page },
        Entry::closed(0, PRIVATE, FRAME_BYTES),
        Entry { asid: 512, kind: PRIVATE, ..page },
        Entry { address: FRAME_BYTES + 1, ..page },
        Entry { address: ADDRESS_END, ..page },
        Entry { address: FRAME_BYTES, ..Entry::LEAF },
        Entry { validated: true, ..Entry::LEAF },
        Entry { asid: 1, ..Entry::LEAF },
        Entry { address: FRAME_BYTES, ..Entry::SHARED },
        Entry { validated: true, ..Entry::SHARED },
        Entry { fixed: true, ..Entry::SHARED },
        Entry { asid: 1, ..Entry::SHARED },
        Entry { unused: 1, ..Entry::SHARED },
        Entry { unused: 1 << (UNUSED_BITS - 1), ..page },
    ];
    state.put(frame, random.pick(&misfits));
}

/// The leaf of a fixed page gets another type, or an entry that is not well formed.
fn spoil_leaf_entry(random: &mut Random, state: &mut State, page: usize) {
    let leaf = frame_of(state.entry(page).address);
    if leaf >= state.n() {
        return;
    }
    let kind = random.pick(&[SHARED, PRIVATE, MERGEABLE, LEAF]);
    match kind {
        SHARED => state.put(leaf, Entry::SHARED),
        LEAF => misfit(random, state, leaf),
        _ => state.put(leaf, Entry::closed(7, kind, FRAME_BYTES).open()),
    }
}

/// A word of a fixed page's leaf becomes misshapen, or word 0 becomes present, or one bit changes.
fn spoil_leaf_word(random: &mut Random, state: &mut State, page: usize) {
    let page = state.entry(page);
    let leaf = frame_of(page.address);
    let asid = match random.below(4) {
        0 => 0,
        1 => random.pick(&[1, 2, 7, 511]),
        _ => page.asid as usize,
    };
    let Some(word) = state.frame_mut(leaf).and_then(|words| words.get_mut(asid)) else {
        return;
    };
    match random.below(4) {
        0 => *word ^= 1 << random.below(64),
        1 => *word = present(0x50000),
        _ => *word = present(random.pick(&NO_ADDRESSES)),
    }
}

/// A fixed page's leaf gets at most two present words, misshapen ones and word 0 among them.
fn thin_leaf(random: &mut Random, state: &mut State, page: usize) {
    let page = state.entry(page);
    let Some(words) = state.frame_mut(frame_of(page.address)) else {
        return;
    };
    words.iter_mut().for_each(|word| *word = gpa_of(*word)); // absent, whatever the other bits
    for _ in 0..random.pick(&[0, 1, 1, 2, 2]) {
        let asid = random.pick(&[0, 7, page.asid as usize]);
        let gpa = match random.chance(50) {
            true => 0x50000,
            false => random.pick(&NO_ADDRESSES),
        };
        if let Some(word) = words.get_mut(asid) {
            *word = present(gpa);
        }
    }
}

/// The words of an entry with random fields, most of them of a guest that can be; now and then with one bit of word 0 more.
fn wild(random: &mut Random, state: &State) -> [u64; ENTRY_WORDS] {
    let asid = random.pick(&[0, 1, 2, 7, 511, 512]);
    let flags = [(false, false), (true, false), (true, true), (false, true)];
    let (validated, fixed) = random.pick(&flags);
    let more = if random.chance(5) {
        1 << random.below(64)
    } else {
        0
    };
    let kind = random.below(4);
    let entry = Entry {
        validated,
        fixed,
        ..Entry::closed(asid, kind, wild_address(random, state))
    };
    let mut words = entry.words();
    words[0] |= more;
    words
}

fn wild_address(random: &mut Random, state: &State) -> u64 {
    match random.below(8) {
        0 | 1 => 0,
        2..=5 => address(random.index(state.n() + 1)),
        6 => random.below(ADDRESSES) * FRAME_BYTES,
        _ => random.word() >> random.below(64),
    }
}
