//! Requests by virtual address: their numbers, as a list, and such requests on page tables that are known, or with any numbers.

use common::layout::{MERGEABLE, PRIVATE};
use second::{Request, Virtual};

use crate::arguments::{any_numbers, index, value, Kind};
use crate::random::Random;
use crate::requests::distorted;
use crate::state::State;

/// What the numbers of such a request are.
pub fn kinds(request: &Request) -> &'static [Kind] {
    use Kind::*;
    match request {
        Request::PvalidateVa { .. } => &[Party, Guest, Type, Frame, Virtual, Type],
        Request::ReadVa { .. } => &[Party, Guest, Type, Frame, Virtual, Index],
        Request::WriteVa { .. } => &[Party, Guest, Type, Frame, Virtual, Index, Value],
        _ => &[Party, Guest, Type, Frame, Virtual],
    }
}

#[rustfmt::skip]
pub fn numbers(request: &Request) -> Vec<u64> {
    let at = request.virtual_address().expect("it names a virtual address");
    let Virtual { caller, root, root_type, host_root, va } = at;
    let mut numbers = vec![caller, root, root_type, host_root, va];
    match *request {
        Request::PvalidateVa { kind, .. } => numbers.push(kind),
        Request::ReadVa { index, .. } => numbers.push(index),
        Request::WriteVa { index, value, .. } => numbers.extend([index, value]),
        _ => {}
    }
    numbers
}

/// The same request with other numbers, as many as it has.
#[rustfmt::skip]
pub fn with_numbers(request: &Request, numbers: &[u64]) -> Request {
    let &[caller, root, root_type, host_root, va, ref rest @ ..] = numbers else {
        panic!("no request has {} numbers", numbers.len());
    };
    let at = Virtual { caller, root, root_type, host_root, va };
    match (request, rest) {
        (Request::Walk(_), []) => Request::Walk(at),
        (Request::PvalidateVa { .. }, &[kind]) => Request::PvalidateVa { at, kind },
        (Request::ReadVa { .. }, &[index]) => Request::ReadVa { at, index },
        (Request::WriteVa { .. }, &[index, value]) => Request::WriteVa { at, index, value },
        _ => panic!("no request by virtual address has {} numbers", numbers.len()),
    }
}

/// One of the four requests for a virtual address.
pub fn to(random: &mut Random, at: Virtual) -> Request {
    let (index, value) = (index(random), value(random));
    match random.below(8) {
        0 | 1 => Request::Walk(at),
        2 | 3 => {
            let kind = random.pick(&[PRIVATE, MERGEABLE]);
            Request::PvalidateVa { at, kind }
        }
        4 | 5 => Request::ReadVa { at, index },
        _ => Request::WriteVa { at, index, value },
    }
}

/// A request with numbers that fit their kinds by and large.
pub fn any(random: &mut Random, state: &State) -> Request {
    #[rustfmt::skip]
    let nowhere = Virtual { caller: 0, root: 0, root_type: 0, host_root: 0, va: 0 };
    let request = to(random, nowhere);
    let numbers = any_numbers(random, state, kinds(&request), false);
    with_numbers(&request, &numbers)
}

/// A request for one of these virtual addresses; or, in so many cases of a hundred, with numbers changed.
pub fn guided(random: &mut Random, state: &State, at: &[Virtual], wrong: u64) -> Request {
    let at = random.pick(at);
    let request = to(random, at);
    match random.chance(wrong) {
        true => distorted(random, state, &request),
        false => request,
    }
}
