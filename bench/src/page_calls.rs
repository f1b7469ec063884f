//! The calls for whole pages as values that either side makes. The check is like the nine calls; these two take or give more than numbers.

use std::hint::black_box;

use crate::calls::{Answered, Call};

/// The one refusal that is measured, 6. The second implementation's reading hands back an empty part then, and no number.
const TYPE: second::Answer = second::Answer::Refused {
    number: 6,
    reason: 0,
};

#[derive(Clone, Copy)]
pub struct PageRead {
    pub caller: u64,
    pub gpa: u64,
    pub hpa: u64,
}

#[derive(Clone, Copy)]
pub struct PageWrite {
    pub caller: u64,
    pub gpa: u64,
    pub hpa: u64,
    pub words: &'static [u64],
}

impl Call for PageRead {
    type Ours = Answered;
    type Second = second::Answer;

    #[inline(always)]
    fn ours(self, table: &mut [u64], memory: &mut [u64]) -> Answered {
        let (caller, gpa, hpa) = self.arguments();
        let page = black_box(skorbilek::page_read(table, memory, caller, gpa, hpa));
        page.map(|_| skorbilek::Answer::Done)
    }

    #[inline(always)]
    fn second(self, table: &mut [u64], memory: &mut [u64]) -> second::Answer {
        let (caller, gpa, hpa) = self.arguments();
        match black_box(second::page_read(table, memory, caller, gpa, hpa)) {
            [] => TYPE,
            _ => second::Answer::Done,
        }
    }

    #[inline(always)]
    fn nobody(self) {
        self.arguments();
    }
}

impl PageRead {
    #[inline(always)]
    fn arguments(self) -> (u64, u64, u64) {
        (
            black_box(self.caller),
            black_box(self.gpa),
            black_box(self.hpa),
        )
    }
}

impl Call for PageWrite {
    type Ours = Answered;
    type Second = second::Answer;

    #[inline(always)]
    fn ours(self, table: &mut [u64], memory: &mut [u64]) -> Answered {
        let (caller, gpa, hpa, words) = self.arguments();
        skorbilek::page_write(table, memory, caller, gpa, hpa, words)
    }

    #[inline(always)]
    fn second(self, table: &mut [u64], memory: &mut [u64]) -> second::Answer {
        let (caller, gpa, hpa, words) = self.arguments();
        second::page_write(table, memory, caller, gpa, hpa, words)
    }

    #[inline(always)]
    fn nobody(self) {
        self.arguments();
    }
}

impl PageWrite {
    #[inline(always)]
    fn arguments(self) -> (u64, u64, u64, &'static [u64]) {
        let words = black_box(self.words);
        (
            black_box(self.caller),
            black_box(self.gpa),
            black_box(self.hpa),
            words,
        )
    }
}
