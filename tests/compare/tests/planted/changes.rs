//! Faults in what a call changes or answers.

use common::layout::{frame_of, present, Entry};
use second::{Answer, Call};

use crate::monitors::{entries, entry, leaf_word, words, Planted};

pub const FAULTS: [Planted; 21] = [
    Planted {
        name: "PMERGE leaves the merged entry as it was",
        make: |call, table, memory| {
            let before = table.to_vec();
            let answer = call.make(table, memory);
            if let (Answer::Done, Call::Pmerge { hpa2, .. }) = (answer, *call) {
                entry(&before, hpa2).put(table, frame_of(hpa2));
            }
            answer
        },
    },
    Planted {
        name: "RMPUPDATE zeroes only on a change to SHARED",
        make: |call, table, memory| {
            let before = memory.to_vec();
            let answer = call.make(table, memory);
            if let (Answer::None | Answer::Closed { .. }, Call::Rmpupdate { hpa, asid: 1.., .. }) =
                (answer, *call)
            {
                memory[words(hpa)].copy_from_slice(&before[words(hpa)]);
            }
            answer
        },
    },
    Planted {
        name: "PMERGE writes the leaf word before 16 is checked",
        make: |call, table, memory| {
            let answer = call.make(table, memory);
            if let (Answer::Refused { number: 16, .. }, Call::Pmerge { hpa1, hpa2, .. }) =
                (answer, *call)
            {
                let merged = entry(table, hpa2);
                memory[leaf_word(table, hpa1, merged.asid)] = present(merged.address);
            }
            answer
        },
    },
    Planted {
        name: "PUNFIX does not zero the leaf frame",
        make: |call, table, memory| {
            let (old_table, old_memory) = (table.to_vec(), memory.to_vec());
            let answer = call.make(table, memory);
            if let (Answer::Unfixed { .. }, Call::Punfix { hpa, .. }) = (answer, *call) {
                let leaf = words(entry(&old_table, hpa).address);
                memory[leaf.clone()].copy_from_slice(&old_memory[leaf]);
            }
            answer
        },
    },
    Planted {
        name: "PUNFIX keeps the old owner",
        make: |call, table, memory| {
            let before = table.to_vec();
            let answer = call.make(table, memory);
            if let (Answer::Unfixed { asid: 1.. }, Call::Punfix { hpa, .. }) = (answer, *call) {
                let kept = Entry {
                    asid: entry(&before, hpa).asid,
                    ..entry(table, hpa)
                };
                kept.put(table, frame_of(hpa));
            }
            answer
        },
    },
    Planted {
        name: "PUNFIX answers the old owner",
        make: |call, table, memory| {
            let before = table.to_vec();
            match (call.make(table, memory), *call) {
                (Answer::Unfixed { asid: 1.. }, Call::Punfix { hpa, .. }) => Answer::Unfixed {
                    asid: entry(&before, hpa).asid,
                },
                (answer, _) => answer,
            }
        },
    },
    Planted {
        name: "PUNFIX zeroes the page that becomes another guest's",
        make: |call, table, memory| {
            let before = table.to_vec();
            let answer = call.make(table, memory);
            if let (Answer::Unfixed { asid }, Call::Punfix { hpa, .. }) = (answer, *call) {
                if entry(&before, hpa).asid != asid {
                    memory[words(hpa)].fill(0);
                }
            }
            answer
        },
    },
    Planted {
        name: "PUNFIX does not zero the page that nobody is left in",
        make: |call, table, memory| {
            let before = memory.to_vec();
            let answer = call.make(table, memory);
            if let (Answer::Unfixed { asid: 0 }, Call::Punfix { hpa, .. }) = (answer, *call) {
                memory[words(hpa)].copy_from_slice(&before[words(hpa)]);
            }
            answer
        },
    },
    Planted {
        name: "PUNFIX leaves the entry of the page that nobody is left in",
        make: |call, table, memory| {
            let before = table.to_vec();
            let answer = call.make(table, memory);
            if let (Answer::Unfixed { asid: 0 }, Call::Punfix { hpa, .. }) = (answer, *call) {
                entry(&before, hpa).put(table, frame_of(hpa));
            }
            answer
        },
    },
    Planted {
        name: "PFIX does not zero the leaf frame",
        make: |call, table, memory| {
            let before = memory.to_vec();
            let answer = call.make(table, memory);
            if let (Answer::Done, Call::Pfix { hpa, leaf, .. }) = (answer, *call) {
                let owner = entry(table, hpa).asid as usize;
                let word = memory[words(leaf)][owner];
                memory[words(leaf)].copy_from_slice(&before[words(leaf)]);
                memory[words(leaf)][owner] = word;
            }
            answer
        },
    },
    Planted {
        name: "PUNMERGE does not set VALIDATED",
        make: |call, table, memory| {
            let answer = call.make(table, memory);
            if let (Answer::Done, Call::Punmerge { hpa2, .. }) = (answer, *call) {
                let copy = Entry {
                    validated: false,
                    ..entry(table, hpa2)
                };
                copy.put(table, frame_of(hpa2));
            }
            answer
        },
    },
    Planted {
        name: "PUNMERGE copies all words but the last",
        make: |call, table, memory| {
            let before = memory.to_vec();
            let answer = call.make(table, memory);
            if let (Answer::Done, Call::Punmerge { hpa2, .. }) = (answer, *call) {
                memory[words(hpa2)][511] = before[words(hpa2)][511];
            }
            answer
        },
    },
    Planted {
        name: "PUNMERGE leaves the leaf word",
        make: |call, table, memory| {
            let before = memory.to_vec();
            let answer = call.make(table, memory);
            if let (Answer::Done, Call::Punmerge { hpa1, asid, .. }) = (answer, *call) {
                let word = leaf_word(table, hpa1, asid);
                memory[word] = before[word];
            }
            answer
        },
    },
    Planted {
        name: "RMPUPDATE keeps VALIDATED where no field is new",
        make: |call, table, memory| {
            let before = table.to_vec();
            let answer = call.make(table, memory);
            if let (Answer::Closed { .. }, Call::Rmpupdate { hpa, .. }) = (answer, *call) {
                let (old, new) = (entry(&before, hpa), entry(table, hpa));
                if new.open() == old {
                    old.put(table, frame_of(hpa));
                }
            }
            answer
        },
    },
    Planted {
        name: "RMPUPDATE tells the new address as the closed one",
        make: |call, table, memory| match (call.make(table, memory), *call) {
            (Answer::Closed { asid, .. }, Call::Rmpupdate { gpa, .. }) => {
                Answer::Closed { asid, gpa }
            }
            (answer, _) => answer,
        },
    },
    Planted {
        name: "PVALIDATE answers opened always",
        make: |call, table, memory| match call.make(table, memory) {
            Answer::Already => Answer::Opened,
            answer => answer,
        },
    },
    Planted {
        name: "CENSUS counts pages that are not VALIDATED",
        make: |call, table, memory| match (call.make(table, memory), *call) {
            (Answer::Count(count), Call::Census { asid }) => {
                let closed = |entry: &Entry| entry.asid == asid && !entry.validated;
                Answer::Count(count + entries(table).filter(closed).count() as u64)
            }
            (answer, _) => answer,
        },
    },
    Planted {
        name: "CENSUS counts a fixed page for its owner",
        make: |call, table, memory| match (call.make(table, memory), *call) {
            (Answer::Count(_), Call::Census { asid }) => {
                let own = |entry: &Entry| entry.asid == asid && entry.validated;
                Answer::Count(entries(table).filter(own).count() as u64)
            }
            (answer, _) => answer,
        },
    },
    Planted {
        name: "WRITE of word 511 writes one word more",
        make: |call, table, memory| {
            let answer = call.make(table, memory);
            if let (
                Answer::Done,
                Call::Write {
                    hpa,
                    index: 511,
                    value,
                    ..
                },
            ) = (answer, *call)
            {
                if let Some(word) = memory.get_mut(words(hpa).end) {
                    *word = value;
                }
            }
            answer
        },
    },
    Planted {
        name: "READ of word 511 gives word 510",
        make: |call, table, memory| match (call.make(table, memory), *call) {
            (
                Answer::Word(_),
                Call::Read {
                    hpa, index: 511, ..
                },
            ) => Answer::Word(memory[words(hpa)][510]),
            (answer, _) => answer,
        },
    },
    Planted {
        name: "a READ that panics",
        make: |call, table, memory| match (call.make(table, memory), *call) {
            (Answer::Refused { number: 4, .. }, Call::Read { hpa, .. }) => {
                Answer::Word(memory[words(hpa)][0])
            }
            (answer, _) => answer,
        },
    },
];
