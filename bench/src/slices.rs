//! What the proved loops over frames are held against: Rust's slice methods, each in a function of its own, as the proved ones are.

use common::layout::frame_at;

/// Makes all words of a frame zero.
#[inline(never)]
pub fn zero(memory: &mut [u64], frame: usize) {
    memory[frame_at(frame)].fill(0);
}

/// Copies a frame to another.
#[inline(never)]
pub fn copy(memory: &mut [u64], from: usize, to: usize) {
    memory.copy_within(frame_at(from), frame_at(to).start);
}

/// How many words of two frames differ.
#[inline(never)]
pub fn differing(memory: &[u64], one: usize, two: usize) -> u64 {
    let pairs = memory[frame_at(one)].iter().zip(&memory[frame_at(two)]);
    pairs.filter(|(one, two)| one != two).count() as u64
}

/// Whether two frames are equal.
#[inline(never)]
pub fn equal(memory: &[u64], one: usize, two: usize) -> bool {
    memory[frame_at(one)] == memory[frame_at(two)]
}
