//! The proved loops over frames against Rust's slice methods.

use std::hint::black_box;
use std::time::{Duration, Instant};

use common::layout::{memory_words, word_at, FRAME_WORDS};

use crate::frames;
use crate::meter::{Meter, Samples, Timed};
use crate::random::Random;
use crate::slices;
use crate::world::Words;

/// A loop and what it is held against, measured on a memory of so many frames.
#[derive(Clone, Copy)]
pub struct Loop {
    pub name: &'static str,
    pub against: &'static str,
    pub measure: fn(&Meter, usize) -> Samples,
}

/// A loop by its name, what it is held against, the frames that both work on, and both.
macro_rules! against {
    ($name:literal, $against:literal, |$frames:ident| $prepared:expr, $ours:ident, $second:ident) => {
        Loop {
            name: $name,
            against: $against,
            measure: |meter, $frames| meter.pair($prepared, $ours, $second),
        }
    };
}

#[rustfmt::skip]
pub const LOOPS: [Loop; 6] = [
    against!("`frame::zero`", "`fill(0)`", |frames| Frames::equal(frames), zero_ours, zero_second),
    against!("`frame::copy`", "`copy_within`", |frames| Frames::equal(frames), copy_ours, copy_second),
    against!("`frame::differing`", "a count by `zip` and `filter`", |frames| Frames::equal(frames), differing_ours, differing_second),
    against!("`frame::differing`", "`==`, equal frames", |frames| Frames::equal(frames), differing_ours, equal_second),
    against!("`frame::differing`", "`==`, the last word differs", |frames| Frames::differ(frames, FRAME_WORDS - 1), differing_ours, equal_second),
    against!("`frame::differing`", "`==`, the first word differs", |frames| Frames::differ(frames, 0), differing_ours, equal_second),
];

/// A memory of some frames, each of which a loop works on in turn, with the next frame as the second.
struct Frames {
    memory: Words,
    frames: usize,
}

impl Frames {
    /// Frames of zeros.
    fn equal(frames: usize) -> Self {
        let memory = Words::new(memory_words(frames));
        Self { memory, frames }
    }

    /// Frames that differ from the next in one word.
    fn differ(frames: usize, index: usize) -> Self {
        let mut differing = Self::equal(frames);
        for frame in 0..frames {
            differing.memory.all()[word_at(frame, index)] = frame as u64;
        }
        differing
    }

    /// The time that a loop takes on all frames, so many times over.
    #[inline(always)]
    fn time(&mut self, times: usize, work: impl Fn(&mut [u64], usize, usize)) -> Duration {
        let start = Instant::now();
        for _ in 0..times {
            for frame in 0..self.frames {
                let memory = black_box(self.memory.all());
                let next = if frame + 1 < self.frames {
                    frame + 1
                } else {
                    0
                };
                work(memory, frame, next);
            }
        }
        start.elapsed()
    }
}

impl Meter {
    /// Measures two loops on these frames, after a check that they leave the same.
    fn pair(&self, mut frames: Frames, ours: Timed<Frames>, second: Timed<Frames>) -> Samples {
        check();
        let calls = frames.frames;
        let alone = |frames: &mut Frames, times| frames.time(times, |_, _, _| ());
        self.compare(&mut frames, calls, ours, second, alone)
    }
}

/// Holds the proved loops against Rust's on frames of random words, some of them equal.
fn check() {
    let mut random = Random::new();
    let mut ours: Vec<u64> = (0..memory_words(4)).map(|_| random.word()).collect();
    let mut second = ours.clone();
    for _ in 0..32 {
        let (one, two) = (random.below(4), random.below(4));
        let differing = frames::differing(&ours, one, two);
        assert_eq!(differing, slices::differing(&ours, one, two));
        assert_eq!(differing == 0, slices::equal(&ours, one, two));
        if random.coin() {
            frames::zero(&mut ours, one);
            slices::zero(&mut second, one);
        } else {
            frames::copy(&mut ours, one, two);
            slices::copy(&mut second, one, two);
        }
        assert!(ours == second);
        ours[word_at(two, random.below(FRAME_WORDS))] ^= random.word();
        second.copy_from_slice(&ours);
    }
}

fn zero_ours(frames: &mut Frames, times: usize) -> Duration {
    frames.time(times, |memory, frame, _| frames::zero(memory, frame))
}

fn zero_second(frames: &mut Frames, times: usize) -> Duration {
    frames.time(times, |memory, frame, _| slices::zero(memory, frame))
}

fn copy_ours(frames: &mut Frames, times: usize) -> Duration {
    frames.time(times, frames::copy)
}

fn copy_second(frames: &mut Frames, times: usize) -> Duration {
    frames.time(times, slices::copy)
}

fn differing_ours(frames: &mut Frames, times: usize) -> Duration {
    frames.time(times, |memory, one, two| {
        black_box(frames::differing(memory, one, two));
    })
}

fn differing_second(frames: &mut Frames, times: usize) -> Duration {
    frames.time(times, |memory, one, two| {
        black_box(slices::differing(memory, one, two));
    })
}

fn equal_second(frames: &mut Frames, times: usize) -> Duration {
    frames.time(times, |memory, one, two| {
        black_box(slices::equal(memory, one, two));
    })
}
