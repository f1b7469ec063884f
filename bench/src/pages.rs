//! A whole SHARED page by one call of the library, against the ways to do without that call. Both sides are ours.

use std::hint::black_box;
use std::time::{Duration, Instant};

use common::layout::{address, frame_at, FRAME_WORDS, SHARED};
use skorbilek::{page_check, page_read, page_write, read, write, Answer, HOST};

use crate::loops::Loop;
use crate::meter::{Meter, Samples, Timed};
use crate::world::{Words, World};

/// One call and what it is held against, on so many frames in turn.
macro_rules! against {
    ($name:literal, $against:literal, $one:ident, $other:ident) => {
        Loop {
            name: $name,
            against: $against,
            measure: |meter, frames| measured(meter, frames, $one, $other),
        }
    };
}

#[rustfmt::skip]
pub const PAGES: [Loop; 4] = [
    against!("`page_read`", "512 READs", page_is_read, words_are_read),
    against!("`page_read` and a copy", "512 READs, each word kept", page_is_copied, words_are_copied),
    against!("`page_write`", "512 WRITEs", page_is_written, words_are_written),
    against!("`page_write`", "`page_check` and a copy of 4,096 bytes", page_is_written, page_is_checked_and_copied),
];

/// SHARED frames, and a page beside them.
struct Pages {
    world: World,
    page: Words,
    frames: usize,
}

impl Pages {
    /// As many frames as are worked on in turn, of a table that may have more. No two words are the same.
    fn new(frames: usize) -> Self {
        let mut world = World::new(frames.max(8));
        let mut page = Words::new(FRAME_WORDS);
        let (_, memory) = world.slices();
        for (word, value) in memory.iter_mut().chain(page.all()).zip(1..) {
            *word = value;
        }
        Self {
            world,
            page,
            frames,
        }
    }

    /// The time that some work takes on all frames, so many times over. It gets table, memory, the page, and a frame.
    #[inline(always)]
    fn time(
        &mut self,
        times: usize,
        work: impl Fn(&[u64], &mut [u64], &mut [u64], usize),
    ) -> Duration {
        let (table, memory) = self.world.slices();
        let page = self.page.all();
        let start = Instant::now();
        for _ in 0..times {
            for frame in 0..self.frames {
                work(table, memory, page, black_box(frame));
            }
        }
        start.elapsed()
    }
}

fn measured(meter: &Meter, frames: usize, one: Timed<Pages>, other: Timed<Pages>) -> Samples {
    check(one, other);
    let alone = |pages: &mut Pages, times| pages.time(times, |_, _, _, _| ());
    meter.compare(&mut Pages::new(frames), frames, one, other, alone)
}

/// Both leave the same memory and the same page.
fn check(one: Timed<Pages>, other: Timed<Pages>) {
    let [mut left, mut right] = [Pages::new(4), Pages::new(4)];
    one(&mut left, 1);
    other(&mut right, 1);
    assert!(left.world.slices() == right.world.slices());
    assert!(left.page.all() == right.page.all());
}

fn page_is_read(pages: &mut Pages, times: usize) -> Duration {
    pages.time(times, |table, memory, _, frame| {
        let page = page_read(table, memory, HOST, 0, address(frame));
        black_box(page.expect("a SHARED frame"));
    })
}

fn words_are_read(pages: &mut Pages, times: usize) -> Duration {
    pages.time(times, |table, memory, _, frame| {
        for index in 0..FRAME_WORDS {
            black_box(word(table, memory, frame, index));
        }
    })
}

fn page_is_copied(pages: &mut Pages, times: usize) -> Duration {
    pages.time(times, |table, memory, page, frame| {
        let read = page_read(table, memory, HOST, 0, address(frame));
        page.copy_from_slice(read.expect("a SHARED frame"));
        black_box(page);
    })
}

fn words_are_copied(pages: &mut Pages, times: usize) -> Duration {
    pages.time(times, |table, memory, page, frame| {
        for (index, kept) in page.iter_mut().enumerate() {
            *kept = word(table, memory, frame, index);
        }
        black_box(page);
    })
}

/// A word by one READ.
#[inline(always)]
fn word(table: &[u64], memory: &[u64], frame: usize, index: usize) -> u64 {
    let hpa = address(frame);
    match read(table, memory, HOST, 0, hpa, SHARED, SHARED, index as u64) {
        Ok(Answer::Word(word)) => word,
        other => panic!("a SHARED frame: {other:?}"),
    }
}

fn page_is_written(pages: &mut Pages, times: usize) -> Duration {
    pages.time(times, |table, memory, page, frame| {
        let written = page_write(table, memory, HOST, 0, address(frame), page);
        written.expect("a SHARED frame");
    })
}

fn words_are_written(pages: &mut Pages, times: usize) -> Duration {
    pages.time(times, |table, memory, page, frame| {
        let hpa = address(frame);
        for (index, &word) in (0..).zip(&*page) {
            let written = write(table, memory, HOST, 0, hpa, SHARED, SHARED, index, word);
            written.expect("a SHARED frame");
        }
    })
}

fn page_is_checked_and_copied(pages: &mut Pages, times: usize) -> Duration {
    pages.time(times, |table, memory, page, frame| {
        let checked = page_check(table, memory, HOST, 0, address(frame));
        checked.expect("a SHARED frame");
        memory[frame_at(frame)].copy_from_slice(page);
    })
}
