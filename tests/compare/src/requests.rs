//! A request: one of the nine calls, one for a whole page, or one by virtual address. Its numbers, as a list; and requests for the state at
//! hand.

use std::fmt;

use common::layout::address;
use second::Request;

use crate::arguments::{self, Kind};
use crate::guided;
use crate::pages;
use crate::random::Random;
use crate::state::State;
use crate::walks;

/// Of a hundred requests, so many are for a whole page.
const PAGES: u64 = 10;
/// Of a hundred requests that have any numbers, so many are by virtual address.
const WALKS: u64 = 15;
const BY_ADDRESS: u64 = PAGES + WALKS;

/// How many words of a page are printed.
const PRINTED: usize = 8;

/// The letters and names of all requests: the nine calls, as scripts have them, and whole pages and calls by virtual address, which scripts
/// do not know.
pub const NAMES: [(char, &str); 16] = [
    ('U', "RMPUPDATE"),
    ('V', "PVALIDATE"),
    ('F', "PFIX"),
    ('M', "PMERGE"),
    ('D', "PUNMERGE"),
    ('X', "PUNFIX"),
    ('R', "READ"),
    ('W', "WRITE"),
    ('C', "CENSUS"),
    ('r', "page_read"),
    ('w', "page_write"),
    ('c', "page_check"),
    ('k', "walk"),
    ('v', "pvalidate_va"),
    ('l', "read_va"),
    ('s', "write_va"),
];

/// A request as it is printed.
pub struct Shown<'a>(pub &'a Request);

/// The letter of a request.
pub fn letter(request: &Request) -> char {
    match request {
        Request::Call(call) => call.letter(),
        Request::PageRead { .. } => 'r',
        Request::PageWrite { .. } => 'w',
        Request::PageCheck { .. } => 'c',
        Request::Walk(_) => 'k',
        Request::PvalidateVa { .. } => 'v',
        Request::ReadVa { .. } => 'l',
        Request::WriteVa { .. } => 's',
    }
}

/// What the numbers of a request are. The words of a page are none of them.
pub fn kinds(request: &Request) -> &'static [Kind] {
    match request {
        Request::Call(call) => arguments::kinds(call.letter()),
        Request::PageRead { .. } | Request::PageWrite { .. } | Request::PageCheck { .. } => {
            &pages::KINDS
        }
        _ => walks::kinds(request),
    }
}

#[rustfmt::skip]
pub fn numbers(request: &Request) -> Vec<u64> {
    match *request {
        Request::Call(ref call) => arguments::numbers(call),
        Request::PageRead { caller, gpa, hpa }
        | Request::PageWrite { caller, gpa, hpa, .. }
        | Request::PageCheck { caller, gpa, hpa } => vec![caller, gpa, hpa],
        _ => walks::numbers(request),
    }
}

/// The same request with other numbers, as many as it has.
#[rustfmt::skip]
pub fn with_numbers(request: &Request, numbers: &[u64]) -> Request {
    match (request, numbers) {
        (Request::Call(call), _) => Request::Call(arguments::call(call.letter(), numbers)),
        (Request::PageRead { .. }, &[caller, gpa, hpa]) => Request::PageRead { caller, gpa, hpa },
        (Request::PageCheck { .. }, &[caller, gpa, hpa]) => Request::PageCheck { caller, gpa, hpa },
        (Request::PageWrite { words, .. }, &[caller, gpa, hpa]) =>
            Request::PageWrite { caller, gpa, hpa, words: words.clone() },
        _ => walks::with_numbers(request, numbers),
    }
}

/// The request with one of its numbers changed, or two or three.
pub fn distorted(random: &mut Random, state: &State, request: &Request) -> Request {
    let mut numbers = numbers(request);
    arguments::distort(random, state, kinds(request), &mut numbers);
    with_numbers(request, &numbers)
}

/// Any request, with numbers that fit their kinds by and large.
pub fn any(random: &mut Random, state: &State) -> Request {
    match random.below(100) {
        0..PAGES => pages::any(random, state),
        PAGES..BY_ADDRESS => walks::any(random, state),
        _ => Request::Call(arguments::any(random, state)),
    }
}

/// A call of the host's that names two frames, any of the table, and has nothing else wrong with it.
pub fn of_two_frames(random: &mut Random, state: &State) -> Request {
    let mut frame = || address(random.index(state.n().max(1)));
    let (hpa1, hpa2) = (frame(), frame());
    Request::Call(match random.below(3) {
        0 => arguments::call('F', &[0, hpa1, hpa2]),
        1 => arguments::call('M', &[0, hpa1, hpa2]),
        _ => arguments::call('D', &[0, hpa1, hpa2, random.pick(&[1, 2, 7, 511])]),
    })
}

/// A request for this state, as meant; or, in so many cases of a hundred, with numbers changed.
pub fn guided(random: &mut Random, state: &State, distorted: u64) -> Request {
    match random.chance(PAGES) {
        true => pages::guided(random, state, distorted),
        false => Request::Call(guided::call(random, state, distorted)),
    }
}

impl fmt::Display for Shown<'_> {
    #[rustfmt::skip]
    fn fmt(&self, f: &mut fmt::Formatter<'_>) -> fmt::Result {
        match self.0 {
            Request::Call(call) => write!(f, "{call}"),
            Request::PageRead { caller, gpa, hpa } =>
                write!(f, "page_read {caller:x} {gpa:x} {hpa:x}"),
            Request::PageCheck { caller, gpa, hpa } =>
                write!(f, "page_check {caller:x} {gpa:x} {hpa:x}"),
            Request::PageWrite { caller, gpa, hpa, words } => {
                write!(f, "page_write {caller:x} {gpa:x} {hpa:x}, {} words", words.len())?;
                print_words(f, words)
            }
            _ => print_numbers(f, self.0),
        }
    }
}

/// The name and the numbers of a request.
fn print_numbers(f: &mut fmt::Formatter<'_>, request: &Request) -> fmt::Result {
    let row = NAMES.iter().find(|(call, _)| *call == letter(request));
    let (_, name) = row.expect("every request has a name");
    write!(f, "{name}")?;
    let mut numbers = numbers(request).into_iter();
    numbers.try_for_each(|number| write!(f, " {number:x}"))
}

/// The words of a page that are not zero.
fn print_words(f: &mut fmt::Formatter<'_>, words: &[u64]) -> fmt::Result {
    let set = words.iter().enumerate().filter(|(_, &word)| word != 0);
    for (index, word) in set.clone().take(PRINTED) {
        write!(f, ", [{index}] = {word:x}")?;
    }
    match set.count().saturating_sub(PRINTED) {
        0 => Ok(()),
        more => write!(f, " and {more} more"),
    }
}

#[cfg(test)]
mod tests {
    use second::Virtual;

    use super::*;

    #[test]
    fn a_request_is_its_letter_and_numbers() {
        let mut random = Random::new(3);
        let state = State::zero(8, 10);
        let mut met = Vec::new();
        for _ in 0..1000 {
            let request = any(&mut random, &state);
            met.push(letter(&request));
            let same = with_numbers(&request, &numbers(&request));
            assert_eq!(same, request);
            assert_eq!(numbers(&request).len(), kinds(&request).len());
            let other: Vec<u64> = kinds(&request).iter().map(|_| random.word()).collect();
            assert_eq!(numbers(&with_numbers(&request, &other)), other);
        }
        for letter in NAMES.map(|(letter, _)| letter) {
            assert!(met.contains(&letter), "{letter}");
        }
    }

    #[test]
    fn a_page_is_printed_by_its_words() {
        let mut words = vec![0; 512];
        (words[1], words[511]) = (0x2a, 1);
        let [caller, gpa, hpa] = [7, 0x50000, 0x1000];
        #[rustfmt::skip]
        let request = Request::PageWrite { caller, gpa, hpa, words };
        let shown = "page_write 7 50000 1000, 512 words, [1] = 2a, [511] = 1";
        assert_eq!(Shown(&request).to_string(), shown);
        #[rustfmt::skip]
        let request = Request::PageWrite { caller, gpa, hpa, words: vec![1; 511] };
        let shown = Shown(&request).to_string();
        assert!(shown.contains("511 words, [0] = 1") && shown.ends_with("[7] = 1 and 503 more"));
    }

    #[test]
    fn a_call_by_virtual_address_is_printed_by_its_numbers() {
        let [caller, root, root_type, host_root, va] = [7, 0x51000, 1, 0, 0x3000];
        #[rustfmt::skip]
        let at = Virtual { caller, root, root_type, host_root, va };
        let (index, value) = (3, 0x2a);
        let request = Request::WriteVa { at, index, value };
        assert_eq!(
            Shown(&request).to_string(),
            "write_va 7 51000 1 0 3000 3 2a"
        );
    }
}
