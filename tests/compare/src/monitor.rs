//! Monitors behind one interface, so that any two can be compared, and a request taken by one of them.

use std::cell::Cell;
use std::ops::Range;
use std::panic::{self, AssertUnwindSafe};
use std::sync::Once;

use common::answer::{translated, translated_mapping, translated_reached};
use second::{page_check, page_read, Answer, Call, Mapping, Reached, Refusal, Reply};
use second::{Request, Virtual};

use crate::state::State;

/// A monitor: it takes requests on a table and a memory that it is lent.
pub trait Monitor {
    fn name(&self) -> &str;

    /// Replies. A reading of a page that is refused replies number and reason, which is what the check of it answers.
    fn reply<'m>(&self, request: &Request, table: &mut [u64], memory: &'m mut [u64]) -> Reply<'m>;
}

/// The proved library, through its Rust bindings.
pub struct Proved;

/// The second program.
pub struct Second;

/// What came of a request.
#[derive(Clone, PartialEq, Eq, Debug)]
pub enum Outcome {
    Answered(Answer),
    Handed(Part),
    Mapped(Result<Mapping, Refusal>),
    Reached(Reached),
    Panicked,
}

impl Outcome {
    /// Number and reason, if it is a refusal.
    pub fn refusal(&self) -> Option<(u8, u8)> {
        match *self {
            Self::Mapped(Err(refusal)) => Some((refusal.number(), refusal.reason())),
            Self::Answered(answer) | Self::Reached(Reached { answer, .. }) => match answer {
                Answer::Refused { number, reason } => Some((number, reason)),
                _ => None,
            },
            _ => None,
        }
    }
}

/// What a reading of a page handed back.
#[derive(Clone, PartialEq, Eq, Debug)]
pub struct Part {
    /// Where it begins in memory, if it is a part of it.
    pub start: Option<usize>,
    pub words: Vec<u64>,
}

impl Monitor for Proved {
    fn name(&self) -> &str {
        "proved"
    }

    #[rustfmt::skip]
    fn reply<'m>(
        &self,
        request: &Request,
        table: &mut [u64],
        memory: &'m mut [u64],
    ) -> Reply<'m> {
        Reply::Answer(translated(match *request {
            Request::Call(ref call) => proved(call, table, memory),
            Request::PageRead { caller, gpa, hpa } =>
                match skorbilek::page_read(table, memory, caller, gpa, hpa) {
                    Ok(page) => return Reply::Page(page),
                    Err(refusal) => Err(refusal),
                },
            Request::PageWrite { caller, gpa, hpa, ref words } =>
                skorbilek::page_write(table, memory, caller, gpa, hpa, words),
            Request::PageCheck { caller, gpa, hpa } =>
                skorbilek::page_check(table, memory, caller, gpa, hpa),
            _ => return proved_by_address(request, table, memory),
        }))
    }
}

/// A call by virtual address by the library.
#[rustfmt::skip]
fn proved_by_address<'m>(request: &Request, table: &mut [u64], memory: &mut [u64]) -> Reply<'m> {
    let at = request.virtual_address().expect("every other request names a virtual address");
    let Virtual { caller, root, root_type, host_root, va } = at;
    Reply::Reached(translated_reached(match *request {
        Request::PvalidateVa { kind, .. } =>
            skorbilek::pvalidate_va(table, memory, caller, root, root_type, host_root, va, kind),
        Request::ReadVa { index, .. } =>
            skorbilek::read_va(table, memory, caller, root, root_type, host_root, va, index),
        Request::WriteVa { index, value, .. } =>
            skorbilek::write_va(table, memory, caller, root, root_type, host_root, va, index, value),
        _ => {
            let found = skorbilek::walk(table, memory, caller, root, root_type, host_root, va);
            return Reply::Mapping(translated_mapping(found));
        }
    }))
}

/// A call by the library.
#[rustfmt::skip]
fn proved(
    call: &Call,
    table: &mut [u64],
    memory: &mut [u64],
) -> Result<skorbilek::Answer, skorbilek::Refusal> {
    match *call {
        Call::Rmpupdate { caller, hpa, gpa, asid, kind } =>
            skorbilek::rmpupdate(table, memory, caller, hpa, gpa, asid, kind),
        Call::Pvalidate { caller, gpa, hpa, kind } =>
            skorbilek::pvalidate(table, memory, caller, gpa, hpa, kind),
        Call::Pfix { caller, hpa, leaf } =>
            skorbilek::pfix(table, memory, caller, hpa, leaf),
        Call::Pmerge { caller, hpa1, hpa2 } =>
            skorbilek::pmerge(table, memory, caller, hpa1, hpa2),
        Call::Punmerge { caller, hpa1, hpa2, asid } =>
            skorbilek::punmerge(table, memory, caller, hpa1, hpa2, asid),
        Call::Punfix { caller, hpa } =>
            skorbilek::punfix(table, memory, caller, hpa),
        Call::Read { caller, gpa, hpa, gtype, ntype, index } =>
            skorbilek::read(table, memory, caller, gpa, hpa, gtype, ntype, index),
        Call::Write { caller, gpa, hpa, gtype, ntype, index, value } =>
            skorbilek::write(table, memory, caller, gpa, hpa, gtype, ntype, index, value),
        Call::Census { asid } =>
            skorbilek::census(table, memory, asid),
    }
}

impl Monitor for Second {
    fn name(&self) -> &str {
        "second"
    }

    fn reply<'m>(&self, request: &Request, table: &mut [u64], memory: &'m mut [u64]) -> Reply<'m> {
        let Request::PageRead { caller, gpa, hpa } = *request else {
            return request.make(table, memory);
        };
        let memory: &[u64] = memory;
        match page_read(table, memory, caller, gpa, hpa) {
            [] => Reply::Answer(page_check(table, memory, caller, gpa, hpa)),
            page => Reply::Page(page),
        }
    }
}

thread_local! {
    static TRYING: Cell<bool> = const { Cell::new(false) };
}

/// Takes a request. A panic is an outcome too: it is compared and reported like an answer.
pub fn make(monitor: &dyn Monitor, request: &Request, state: &mut State) -> Outcome {
    let State { table, memory } = state;
    let lent = memory.as_ptr_range();
    let made = attempt(|| match monitor.reply(request, table, memory) {
        Reply::Answer(answer) => Outcome::Answered(answer),
        Reply::Page(words) => Outcome::Handed(Part {
            start: place(lent, words),
            words: words.to_vec(),
        }),
        Reply::Mapping(mapping) => Outcome::Mapped(mapping),
        Reply::Reached(reached) => Outcome::Reached(reached),
    });
    made.unwrap_or(Outcome::Panicked)
}

/// Where these words begin in memory, if they are a part of it.
fn place(memory: Range<*const u64>, words: &[u64]) -> Option<usize> {
    let part = words.as_ptr_range();
    let inside = memory.start <= part.start && part.end <= memory.end;
    inside.then(|| (part.start.addr() - memory.start.addr()) / size_of::<u64>())
}

/// What this gives, unless it panics; a panic prints nothing.
pub fn attempt<T>(run: impl FnOnce() -> T) -> Option<T> {
    static HOOK: Once = Once::new();
    HOOK.call_once(|| {
        let usual = panic::take_hook();
        panic::set_hook(Box::new(move |info| {
            if !TRYING.get() {
                usual(info);
            }
        }));
    });
    TRYING.set(true);
    let given = panic::catch_unwind(AssertUnwindSafe(run));
    TRYING.set(false);
    given.ok()
}
