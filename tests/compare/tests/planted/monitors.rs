//! Monitors with a fault each: the second program, with one mistake that looks right.

use std::ops::Range;

use common::layout::{self, frame_at, frame_of, word_at, Entry};
use compare::monitor::{Monitor, Second};
use second::{Answer, Call, Reply, Request};

type Make = fn(&Call, &mut [u64], &mut [u64]) -> Answer;

/// A monitor by what it makes of a call. For whole pages it is the second program.
pub struct Planted {
    pub name: &'static str,
    pub make: Make,
}

impl Monitor for Planted {
    fn name(&self) -> &str {
        self.name
    }

    fn reply<'m>(&self, request: &Request, table: &mut [u64], memory: &'m mut [u64]) -> Reply<'m> {
        match request {
            Request::Call(call) => Reply::Answer((self.make)(call, table, memory)),
            _ => Second.reply(request, table, memory),
        }
    }
}

/// A refusal that is not 5: it has no reason.
pub fn refused(number: u8) -> Answer {
    Answer::Refused { number, reason: 0 }
}

/// A refusal with 5, for this reason.
pub fn bad(reason: u8) -> Answer {
    Answer::Refused { number: 5, reason }
}

/// The entry of the frame at an address.
pub fn entry(table: &[u64], hpa: u64) -> Entry {
    Entry::at(table, frame_of(hpa))
}

/// All entries of a table, by frame.
pub fn entries(table: &[u64]) -> impl Iterator<Item = Entry> + '_ {
    (0..layout::n(table)).map(|frame| Entry::at(table, frame))
}

/// Makes the frames SHARED that have such an entry.
pub fn clear(table: &mut [u64], such: impl Fn(Entry) -> bool) {
    for frame in 0..layout::n(table) {
        if such(Entry::at(table, frame)) {
            Entry::SHARED.put(table, frame);
        }
    }
}

/// Where the words of the frame at an address are in memory.
pub fn words(hpa: u64) -> Range<usize> {
    frame_at(frame_of(hpa))
}

/// Where a guest's word in the leaf of the fixed page at an address is in memory.
pub fn leaf_word(table: &[u64], hpa: u64, asid: u64) -> usize {
    word_at(frame_of(entry(table, hpa).address), asid as usize)
}

/// Makes the call on copies, and keeps what it did if it was accepted.
pub fn accepted(
    call: &Call,
    table: &mut [u64],
    memory: &mut [u64],
    change: impl FnOnce(&mut [u64], &mut [u64]),
) -> Option<Answer> {
    let (mut new_table, mut new_memory) = (table.to_vec(), memory.to_vec());
    change(&mut new_table, &mut new_memory);
    let answer = call.make(&mut new_table, &mut new_memory);
    if matches!(answer, Answer::Refused { .. }) {
        return None;
    }
    table.copy_from_slice(&new_table);
    memory.copy_from_slice(&new_memory);
    Some(answer)
}
