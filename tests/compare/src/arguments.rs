//! A call as a letter and numbers, and numbers for it: taken from the state at hand, at the boundaries, or near what they were.

use common::layout::{address, ADDRESSES, ADDRESS_END, FRAME_BYTES, FRAME_WORDS};
use common::page_tables::{virtual_address, GUEST_END};
use second::Call;

use crate::random::Random;
use crate::state::State;

/// What a number of a call is.
#[derive(Clone, Copy, PartialEq, Eq, Debug)]
pub enum Kind {
    Party,
    Frame,
    Guest,
    Type,
    Index,
    Value,
    Virtual,
}

/// The letters of the nine calls, as scripts have them.
pub const LETTERS: [char; 9] = ['U', 'V', 'F', 'M', 'D', 'X', 'R', 'W', 'C'];

/// Numbers on both sides of every boundary.
const BOUNDARIES: [u64; 22] = [
    0,
    1,
    2,
    510,
    511,
    512,
    513,
    1 << 12,
    (1 << 12) + 1,
    1 << 16,
    1 << 32,
    1 << 44,
    GUEST_END - FRAME_BYTES,
    GUEST_END,
    ADDRESS_END - FRAME_BYTES,
    ADDRESS_END - 1,
    ADDRESS_END,
    ADDRESS_END + 1,
    ADDRESS_END + FRAME_BYTES,
    1 << 63,
    u64::MAX - 4095,
    u64::MAX,
];

/// Virtual addresses at the ends of both halves, and what is just none.
const VIRTUAL: [u64; 12] = [
    0,
    1,
    0x800,
    0x7fff_ffff_f000,
    1 << 47,
    GUEST_END - FRAME_BYTES,
    GUEST_END,
    0x7fff_8000_0000_0000,
    1 << 63,
    0xffff_7fff_ffff_f000,
    0xffff_8000_0000_0000,
    0xffff_ffff_ffff_f000,
];

/// The numbers of a call, in the order of a script's line.
pub fn kinds(letter: char) -> &'static [Kind] {
    use Kind::*;
    match letter {
        'U' => &[Party, Frame, Guest, Party, Type],
        'V' => &[Party, Guest, Frame, Type],
        'F' | 'M' => &[Party, Frame, Frame],
        'D' => &[Party, Frame, Frame, Party],
        'X' => &[Party, Frame],
        'R' => &[Party, Guest, Frame, Type, Type, Index],
        'W' => &[Party, Guest, Frame, Type, Type, Index, Value],
        _ => &[Party],
    }
}

#[rustfmt::skip]
pub fn numbers(call: &Call) -> Vec<u64> {
    match *call {
        Call::Rmpupdate { caller, hpa, gpa, asid, kind } => vec![caller, hpa, gpa, asid, kind],
        Call::Pvalidate { caller, gpa, hpa, kind } => vec![caller, gpa, hpa, kind],
        Call::Pfix { caller, hpa, leaf } => vec![caller, hpa, leaf],
        Call::Pmerge { caller, hpa1, hpa2 } => vec![caller, hpa1, hpa2],
        Call::Punmerge { caller, hpa1, hpa2, asid } => vec![caller, hpa1, hpa2, asid],
        Call::Punfix { caller, hpa } => vec![caller, hpa],
        Call::Read { caller, gpa, hpa, gtype, ntype, index } =>
            vec![caller, gpa, hpa, gtype, ntype, index],
        Call::Write { caller, gpa, hpa, gtype, ntype, index, value } =>
            vec![caller, gpa, hpa, gtype, ntype, index, value],
        Call::Census { asid } => vec![asid],
    }
}

/// The call with this letter and these numbers, as many as `kinds` says.
#[rustfmt::skip]
pub fn call(letter: char, numbers: &[u64]) -> Call {
    match (letter, numbers) {
        ('U', &[caller, hpa, gpa, asid, kind]) => Call::Rmpupdate { caller, hpa, gpa, asid, kind },
        ('V', &[caller, gpa, hpa, kind]) => Call::Pvalidate { caller, gpa, hpa, kind },
        ('F', &[caller, hpa, leaf]) => Call::Pfix { caller, hpa, leaf },
        ('M', &[caller, hpa1, hpa2]) => Call::Pmerge { caller, hpa1, hpa2 },
        ('D', &[caller, hpa1, hpa2, asid]) => Call::Punmerge { caller, hpa1, hpa2, asid },
        ('X', &[caller, hpa]) => Call::Punfix { caller, hpa },
        ('R', &[caller, gpa, hpa, gtype, ntype, index]) =>
            Call::Read { caller, gpa, hpa, gtype, ntype, index },
        ('W', &[caller, gpa, hpa, gtype, ntype, index, value]) =>
            Call::Write { caller, gpa, hpa, gtype, ntype, index, value },
        ('C', &[asid]) => Call::Census { asid },
        _ => panic!("no call has the letter {letter} and {} numbers", numbers.len()),
    }
}

/// A call of any letter, with numbers that fit their kinds by and large.
pub fn any(random: &mut Random, state: &State) -> Call {
    let letter = random.pick(&LETTERS);
    let numbers = any_numbers(random, state, kinds(letter), letter != 'C');
    call(letter, &numbers)
}

/// Numbers that fit these kinds by and large. The first may be the caller's.
pub fn any_numbers(
    random: &mut Random,
    state: &State,
    kinds: &[Kind],
    has_caller: bool,
) -> Vec<u64> {
    let mut of_kind = |(place, &kind): (usize, &Kind)| match kind {
        Kind::Party if place == 0 && has_caller && random.chance(50) => 0,
        _ if random.chance(10) => random.pick(&BOUNDARIES),
        _ => fitting(random, state, kind),
    };
    kinds.iter().enumerate().map(&mut of_kind).collect()
}

/// The call with one number changed, or two or three.
pub fn distorted(random: &mut Random, state: &State, of: &Call) -> Call {
    let letter = of.letter();
    let mut numbers = numbers(of);
    distort(random, state, kinds(letter), &mut numbers);
    call(letter, &numbers)
}

/// Changes one of these numbers, or two or three.
pub fn distort(random: &mut Random, state: &State, kinds: &[Kind], numbers: &mut [u64]) {
    for _ in 0..random.pick(&[1, 1, 1, 2, 3]) {
        let place = random.index(numbers.len());
        numbers[place] = near(random, state, kinds[place], numbers[place]);
    }
}

/// Another number in the place of this one.
fn near(random: &mut Random, state: &State, kind: Kind, number: u64) -> u64 {
    match random.below(11) {
        0..=5 => fitting(random, state, kind),
        6 => random.pick(&BOUNDARIES),
        7 => number ^ 1 << random.below(64),
        8 => number.wrapping_add(random.pick(&[1, u64::MAX])),
        9 => number.wrapping_add(random.pick(&[FRAME_BYTES, FRAME_BYTES.wrapping_neg()])),
        _ => number.wrapping_add(1 << random.pick(&[9, 16, 32, 44, 52])),
    }
}

/// A number of this kind, mostly one that the state at hand makes sense of.
pub fn fitting(random: &mut Random, state: &State, kind: Kind) -> u64 {
    match kind {
        Kind::Party => party(random, state),
        Kind::Frame => frame(random, state),
        Kind::Guest => guest_address(random, state),
        Kind::Type => random.pick(&[0, 0, 1, 1, 2, 2, 2, 3, 4]),
        Kind::Index => index(random),
        Kind::Value => value(random),
        Kind::Virtual => any_virtual(random),
    }
}

/// A virtual address, mostly one with few different indexes.
fn any_virtual(random: &mut Random) -> u64 {
    match random.below(3) {
        0 => random.pick(&VIRTUAL),
        1 => virtual_address([0; 4].map(|_| random.index(4))),
        _ => virtual_address([0; 4].map(|_| random.index(FRAME_WORDS))),
    }
}

fn party(random: &mut Random, state: &State) -> u64 {
    match random.below(10) {
        0..=3 => random.pick(&[1, 2, 7, 511]),
        4..=6 if state.n() > 0 => state.entry(random.index(state.n())).asid,
        7 => 0,
        8 => random.below(512),
        _ => random.pick(&[0, 1, 511, 512, 0x1_0001]),
    }
}

fn frame(random: &mut Random, state: &State) -> u64 {
    let (n, m) = (state.n(), state.m());
    let edges = [n.saturating_sub(1), n, m.saturating_sub(1), m, m + 1, 2];
    match random.below(20) {
        0 | 1 => address(random.pick(&edges)),
        2 => address(random.index(n + 1)) + (1 << random.pick(&[44, 52])),
        3 => address(random.index(n + 1)) + 1,
        4 => address(random.index(m + 1)),
        _ => address(random.index(n.max(1))),
    }
}

/// An address of a guest's: fresh, small, at the ends, or one that a page of the table has.
pub fn guest_address(random: &mut Random, state: &State) -> u64 {
    match random.below(12) {
        0..=4 => random.below(ADDRESSES) * FRAME_BYTES,
        5 | 6 => random.below(16) * FRAME_BYTES,
        7 => 0,
        8 => ADDRESS_END - FRAME_BYTES,
        9 => 0x50000,
        _ if state.n() > 0 => state.entry(random.index(state.n())).address,
        _ => FRAME_BYTES,
    }
}

pub fn index(random: &mut Random) -> u64 {
    match random.below(10) {
        0..=6 => random.pick(&[0, 1, 3, 7, 510, 511]),
        7 => random.pick(&[0, 511, 512]),
        _ => random.below(512),
    }
}

/// A word to write: simple ones, so that frames are often equal; words that a leaf could have; any.
pub fn value(random: &mut Random) -> u64 {
    match random.below(10) {
        0..=5 => random.pick(&[0, 1, 0x2a, u64::MAX]),
        6 | 7 => random.below(ADDRESSES) * FRAME_BYTES + random.below(4),
        _ => random.word(),
    }
}

#[cfg(test)]
mod tests {
    use super::*;

    #[test]
    fn a_call_is_its_letter_and_numbers() {
        let mut random = Random::new(3);
        for letter in LETTERS {
            let given: Vec<u64> = kinds(letter).iter().map(|_| random.word()).collect();
            let call = call(letter, &given);
            assert_eq!((call.letter(), numbers(&call)), (letter, given));
            assert_eq!(
                second::script::parse(call.to_string().as_bytes()),
                Some(call)
            );
        }
    }
}
