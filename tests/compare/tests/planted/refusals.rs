//! Faults in what is refused, and with which number.

use common::layout::{
    self, frame_of, gpa_of, is_present, memory_words, present, table_words, word_at, Entry,
    ADDRESS_END, FRAME_BYTES,
};
use second::{Answer, Call};

use crate::monitors::{accepted, clear, entries, entry, leaf_word, refused, words, Planted};

/// Whether an entry is that of a fixed page, but for what its addresses are.
fn is_fixed_page(entry: Entry) -> bool {
    entry == Entry::fixed(entry.asid, entry.address)
}

/// Where the present words of a fixed page's leaf are in memory, misshapen ones too.
fn present_words(table: &[u64], memory: &[u64], hpa: u64) -> Vec<usize> {
    let leaf = words(entry(table, hpa).address);
    leaf.filter(|&word| is_present(memory[word])).collect()
}

/// Whether a present word of a leaf has no address.
fn is_misshapen(word: u64) -> bool {
    let gpa = gpa_of(word);
    gpa >= ADDRESS_END || !gpa.is_multiple_of(FRAME_BYTES)
}

/// Whether the owner of a fixed page has no place in it.
fn is_left_by_owner(table: &[u64], memory: &[u64], hpa: u64) -> bool {
    !is_present(memory[leaf_word(table, hpa, entry(table, hpa).asid)])
}

pub const FAULTS: [Planted; 32] = [
    Planted {
        name: "PMERGE overwrites a leaf word (14 is skipped)",
        make: |call, table, memory| match (call.make(table, memory), *call) {
            (Answer::Refused { number: 14, .. }, Call::Pmerge { hpa1, hpa2, .. }) => {
                let word = leaf_word(table, hpa1, entry(table, hpa2).asid);
                accepted(call, table, memory, |_, memory| memory[word] = 0).unwrap_or(refused(16))
            }
            (answer, _) => answer,
        },
    },
    Planted {
        name: "PMERGE compares all words but the last",
        make: |call, table, memory| match (call.make(table, memory), *call) {
            (Answer::Refused { number: 16, .. }, Call::Pmerge { hpa1, hpa2, .. }) => {
                let (from, to) = (words(hpa1).end - 1, words(hpa2).end - 1);
                accepted(call, table, memory, |_, memory| memory[to] = memory[from])
                    .unwrap_or(refused(16))
            }
            (answer, _) => answer,
        },
    },
    Planted {
        name: "PFIX uses a leaf twice (15 is skipped)",
        make: |call, table, memory| match (call.make(table, memory), *call) {
            (Answer::Refused { number: 15, .. }, Call::Pfix { leaf, .. }) => {
                let before = table.to_vec();
                let has_leaf = |entry: Entry| entry.fixed && entry.address == leaf;
                let answer = accepted(call, table, memory, |table, _| clear(table, has_leaf));
                let had_leaf = entries(&before)
                    .enumerate()
                    .filter(|&(_, entry)| has_leaf(entry));
                had_leaf.for_each(|(frame, entry)| entry.put(table, frame));
                answer.unwrap_or(refused(15))
            }
            (answer, _) => answer,
        },
    },
    Planted {
        name: "READ does not check the owner (7)",
        make: |call, table, memory| match (call.make(table, memory), *call) {
            #[rustfmt::skip]
            (Answer::Refused { number: 7, .. }, Call::Read { gpa, hpa, gtype, ntype, index, .. }) => {
                let caller = entry(table, hpa).asid;
                Call::Read { caller, gpa, hpa, gtype, ntype, index }.make(table, memory)
            }
            (answer, _) => answer,
        },
    },
    Planted {
        name: "READ of a fixed page does not check the address (8)",
        make: |call, table, memory| match (call.make(table, memory), *call) {
            (Answer::Refused { number: 8, .. }, Call::Read { hpa, index, .. })
                if entry(table, hpa).fixed =>
            {
                Answer::Word(memory[words(hpa)][index as usize])
            }
            (answer, _) => answer,
        },
    },
    Planted {
        name: "an access to an unfixed page does not check the address (8)",
        make: |call, table, memory| match (call.make(table, memory), *call) {
            #[rustfmt::skip]
            (Answer::Refused { number: 8, .. }, Call::Read { caller, hpa, gtype, ntype, index, .. })
                if !entry(table, hpa).fixed =>
            {
                let gpa = entry(table, hpa).address;
                Call::Read { caller, gpa, hpa, gtype, ntype, index }.make(table, memory)
            }
            #[rustfmt::skip]
            (Answer::Refused { number: 8, .. }, Call::Write { caller, hpa, gtype, ntype, index, value, .. }) => {
                let gpa = entry(table, hpa).address;
                Call::Write { caller, gpa, hpa, gtype, ntype, index, value }.make(table, memory)
            }
            (answer, _) => answer,
        },
    },
    Planted {
        name: "PVALIDATE does not check the address (8)",
        make: |call, table, memory| match (call.make(table, memory), *call) {
            #[rustfmt::skip]
            (Answer::Refused { number: 8, .. }, Call::Pvalidate { caller, hpa, kind, .. }) => {
                let gpa = entry(table, hpa).address;
                Call::Pvalidate { caller, gpa, hpa, kind }.make(table, memory)
            }
            (answer, _) => answer,
        },
    },
    Planted {
        name: "PFIX gives a fixed page another leaf (10 is skipped)",
        make: |call, table, memory| match (call.make(table, memory), *call) {
            (Answer::Refused { number: 10, .. }, Call::Pfix { hpa, leaf, .. }) => {
                let page = entry(table, hpa);
                let unfixed = Entry {
                    fixed: false,
                    ..page
                };
                let answer = accepted(call, table, memory, |table, _| {
                    // its own leaf is in use
                    if page.address != leaf {
                        unfixed.put(table, frame_of(hpa));
                    }
                });
                answer.unwrap_or(refused(15))
            }
            (answer, _) => answer,
        },
    },
    Planted {
        name: "READ of a fixed page is its owner's alone (7)",
        make: |call, table, memory| match (call.make(table, memory), *call) {
            (
                Answer::Word(_),
                Call::Read {
                    caller,
                    hpa,
                    gtype: 2,
                    ..
                },
            ) if entry(table, hpa).asid != caller => refused(7),
            (answer, _) => answer,
        },
    },
    Planted {
        name: "PVALIDATE checks 8 before 10",
        make: |call, table, memory| match (call.make(table, memory), *call) {
            (Answer::Refused { number: 10, .. }, Call::Pvalidate { gpa, hpa, .. })
                if entry(table, hpa).address != gpa =>
            {
                refused(8)
            }
            (answer, _) => answer,
        },
    },
    Planted {
        name: "PVALIDATE checks 10 before 7",
        make: |call, table, memory| match (call.make(table, memory), *call) {
            (Answer::Refused { number: 7, .. }, Call::Pvalidate { hpa, .. })
                if entry(table, hpa).fixed =>
            {
                refused(10)
            }
            (answer, _) => answer,
        },
    },
    Planted {
        name: "PUNFIX checks 4 before 3",
        make: |call, table, memory| match (call.make(table, memory), *call) {
            (Answer::Refused { number: 3, .. }, Call::Punfix { hpa, .. })
                if frame_of(hpa) >= layout::n(table) =>
            {
                refused(4)
            }
            (answer, _) => answer,
        },
    },
    Planted {
        name: "PMERGE checks 16 before 14",
        make: |call, table, memory| match (call.make(table, memory), *call) {
            (Answer::Refused { number: 14, .. }, Call::Pmerge { hpa1, hpa2, .. })
                if memory[words(hpa1)] != memory[words(hpa2)] =>
            {
                refused(16)
            }
            (answer, _) => answer,
        },
    },
    Planted {
        name: "PMERGE compares all words but the last",
        make: |call, table, memory| match (call.make(table, memory), *call) {
            (Answer::Refused { number: 16, .. }, Call::Pmerge { hpa1, hpa2, .. }) => {
                let last = memory[words(hpa1)][511];
                let place = word_at(frame_of(hpa2), 511);
                accepted(call, table, memory, |_, memory| memory[place] = last)
                    .unwrap_or(refused(16))
            }
            (answer, _) => answer,
        },
    },
    Planted {
        name: "PUNFIX passes over misshapen words (17)",
        make: |call, table, memory| match (call.make(table, memory), *call) {
            (Answer::Refused { number: 17, .. }, Call::Punfix { hpa, .. }) => {
                let found = present_words(table, memory, hpa);
                accepted(call, table, memory, |_, memory| {
                    for word in found {
                        if is_misshapen(memory[word]) {
                            memory[word] = 0;
                        }
                    }
                })
                .unwrap_or(refused(17))
            }
            (answer, _) => answer,
        },
    },
    Planted {
        name: "PUNFIX checks 12 for a misshapen word before 17",
        make: |call, table, memory| match (call.make(table, memory), *call) {
            (Answer::Refused { number: 17, .. }, Call::Punfix { hpa, .. }) => {
                let mut found = present_words(table, memory, hpa).into_iter();
                match found.any(|word| is_misshapen(memory[word])) {
                    true => refused(12),
                    false => refused(17),
                }
            }
            (answer, _) => answer,
        },
    },
    Planted {
        name: "PUNFIX gives 17 from three present words on",
        make: |call, table, memory| match (call.make(table, memory), *call) {
            (Answer::Refused { number: 17, .. }, Call::Punfix { hpa, .. }) => {
                match present_words(table, memory, hpa)[..] {
                    [_, two] => accepted(call, table, memory, |_, memory| memory[two] = 0)
                        .unwrap_or(refused(12)),
                    _ => refused(17),
                }
            }
            (answer, _) => answer,
        },
    },
    Planted {
        name: "PUNFIX takes index 0 for a guest (12 is skipped)",
        make: |call, table, memory| match (call.make(table, memory), *call) {
            (Answer::Refused { number: 12, .. }, Call::Punfix { hpa, .. }) => {
                let (zero, one) = (leaf_word(table, hpa, 0), leaf_word(table, hpa, 1));
                let moved = accepted(call, table, memory, |_, memory| memory.swap(zero, one));
                if moved.is_none() {
                    return refused(12);
                }
                let owned = Entry {
                    asid: 0,
                    ..entry(table, hpa)
                };
                owned.put(table, frame_of(hpa));
                Answer::Unfixed { asid: 0 }
            }
            (answer, _) => answer,
        },
    },
    Planted {
        name: "PUNFIX takes a misshapen word for present (12 is skipped)",
        make: |call, table, memory| match (call.make(table, memory), *call) {
            (Answer::Refused { number: 12, .. }, Call::Punfix { hpa, .. }) => {
                let found = present_words(table, memory, hpa);
                accepted(call, table, memory, |_, memory| {
                    for word in found {
                        let gpa = gpa_of(memory[word]) % ADDRESS_END;
                        memory[word] = present(gpa - gpa % FRAME_BYTES);
                    }
                })
                .unwrap_or(refused(12))
            }
            (answer, _) => answer,
        },
    },
    Planted {
        name: "PUNFIX gives 13 where the owner has left",
        make: |call, table, memory| {
            let before = (table.to_vec(), memory.to_vec());
            match (call.make(table, memory), *call) {
                (
                    Answer::Unfixed { .. } | Answer::Refused { number: 17, .. },
                    Call::Punfix { hpa, .. },
                ) if is_left_by_owner(&before.0, &before.1, hpa) => {
                    table.copy_from_slice(&before.0);
                    memory.copy_from_slice(&before.1);
                    refused(13)
                }
                (answer, _) => answer,
            }
        },
    },
    Planted {
        name: "a WRITE beyond N is refused with 4",
        make: |call, table, memory| match *call {
            Call::Write { hpa, .. } if frame_of(hpa) >= layout::n(table) => {
                let mut copy = memory.to_vec();
                match call.make(table, &mut copy) {
                    Answer::Done => refused(4),
                    answer => answer,
                }
            }
            _ => call.make(table, memory),
        },
    },
    Planted {
        name: "a leaf word is present where it is not 0",
        make: |call, table, memory| match (call.make(table, memory), *call) {
            (Answer::Refused { number: 13, .. }, Call::Read { caller, hpa, .. }) => {
                match memory[leaf_word(table, hpa, caller)] {
                    0 => refused(13),
                    _ => refused(8),
                }
            }
            (answer, _) => answer,
        },
    },
    Planted {
        name: "CENSUS takes 512 for a guest",
        make: |call, table, memory| match (call.make(table, memory), *call) {
            (Answer::Refused { number: 2, .. }, Call::Census { asid: 512 }) => Answer::Count(0),
            (answer, _) => answer,
        },
    },
    Planted {
        name: "CENSUS gives 5 for a leaf that is not well formed",
        make: |call, table, memory| match (call.make(table, memory), *call) {
            (Answer::Refused { number: 12, .. }, Call::Census { asid }) => {
                // what the frames give if every fixed page were passed over
                let mut plain = table.to_vec();
                clear(&mut plain, is_fixed_page);
                match (Call::Census { asid }).make(&mut plain, memory) {
                    bad @ Answer::Refused { number: 5, .. } => bad,
                    _ => refused(12),
                }
            }
            (answer, _) => answer,
        },
    },
    Planted {
        name: "a table of 4,097 frames is accepted",
        make: |call, table, memory| match table.len() {
            length if length == table_words(4097) && memory.len() > memory_words(4096) => {
                call.make(&mut table[..table_words(4096)], memory)
            }
            _ => call.make(table, memory),
        },
    },
    Planted {
        name: "an address is cut to 44 bits",
        make: |call, table, memory| match *call {
            #[rustfmt::skip]
            Call::Read { caller, gpa, hpa, gtype, ntype, index } if hpa < ADDRESS_END => {
                let hpa = hpa & ((1 << 44) - 1);
                Call::Read { caller, gpa, hpa, gtype, ntype, index }.make(table, memory)
            }
            _ => call.make(table, memory),
        },
    },
    Planted {
        name: "a memory of 8,193 frames is accepted",
        make: |call, table, memory| match layout::m(memory) {
            8193 => call.make(table, &mut memory[..memory_words(8192)]),
            _ => call.make(table, memory),
        },
    },
    Planted {
        name: "the odd word of a table is passed over",
        make: |call, table, memory| {
            let length = table_words(layout::n(table));
            call.make(&mut table[..length], memory)
        },
    },
    Planted {
        name: "memory after the last whole frame is passed over",
        make: |call, table, memory| {
            let length = memory_words(layout::m(memory));
            call.make(table, &mut memory[..length])
        },
    },
    Planted {
        name: "a leaf at N is well formed",
        make: |call, table, memory| match (call.make(table, memory), *call) {
            (Answer::Refused { number: 5, .. }, Call::Punfix { hpa, .. })
                if is_fixed_page(entry(table, hpa))
                    && frame_of(entry(table, hpa).address) == layout::n(table) =>
            {
                refused(12)
            }
            (answer, _) => answer,
        },
    },
    Planted {
        name: "15 does not look at the last entry",
        make: |call, table, memory| match (call.make(table, memory), *call) {
            (Answer::Refused { number: 15, .. }, Call::Pfix { .. }) => {
                let last = layout::n(table) - 1;
                let saved = Entry::at(table, last);
                let answer = accepted(call, table, memory, |table, _| {
                    Entry::SHARED.put(table, last);
                });
                if answer.is_some() {
                    saved.put(table, last);
                }
                answer.unwrap_or(refused(15))
            }
            (answer, _) => answer,
        },
    },
    Planted {
        name: "CENSUS stops before the last frame",
        make: |call, table, memory| match *call {
            Call::Census { .. }
                if layout::n(table) > 1 && layout::n(table) <= layout::m(memory) =>
            {
                let mut copy = table.to_vec();
                Entry::SHARED.put(&mut copy, layout::n(table) - 1);
                match call.make(table, memory) {
                    Answer::Refused { number: 5, .. } | Answer::Count(_) => {
                        call.make(&mut copy, memory)
                    }
                    answer => answer,
                }
            }
            _ => call.make(table, memory),
        },
    },
];
