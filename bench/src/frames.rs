//! The proved loops over frames, from `libskorbilek_frames.a`. This is the only file with unsafe code.
//!
//! A frame is 512 words; a frame that is not in memory is left alone. What the functions ask of a caller is true of a slice by its
//! type: a pointer that is not null, aligned, to that many words, which nobody else writes to meanwhile.
#![allow(unsafe_code)]

// As `crates/frame_loops` has them.
extern "C" {
    fn skorbilek_frame_zero(memory: *mut u64, words: usize, frame: usize);
    fn skorbilek_frame_copy(memory: *mut u64, words: usize, from: usize, to: usize);
    fn skorbilek_frame_differing(memory: *const u64, words: usize, one: usize, two: usize) -> u64;
}

/// Makes all words of a frame zero.
#[inline(always)]
pub fn zero(memory: &mut [u64], frame: usize) {
    // SAFETY: pointer and length are those of a slice (see the head of this file), as in both functions below.
    unsafe { skorbilek_frame_zero(memory.as_mut_ptr(), memory.len(), frame) }
}

/// Copies a frame to another.
#[inline(always)]
pub fn copy(memory: &mut [u64], from: usize, to: usize) {
    unsafe { skorbilek_frame_copy(memory.as_mut_ptr(), memory.len(), from, to) }
}

/// How many words of two frames differ.
#[inline(always)]
pub fn differing(memory: &[u64], one: usize, two: usize) -> u64 {
    unsafe { skorbilek_frame_differing(memory.as_ptr(), memory.len(), one, two) }
}
