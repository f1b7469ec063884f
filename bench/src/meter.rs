//! How two sides are timed: batches in alternating order, pair by pair.

use std::time::Duration;

use crate::calls::Call;
use crate::scene::{Nobody, Ours, Scene, Second};
use crate::told::Tell;

/// How much is measured.
pub struct Meter {
    /// Times that the whole list of measurements is gone through.
    pub passes: usize,
    /// Pairs of batches of one measurement in a pass.
    pub rounds: usize,
    /// What a batch should take.
    pub batch: Duration,
}

/// What a call has to answer.
#[derive(Clone, Copy)]
pub enum Expect {
    Accepted,
    Refused(u8),
}

/// Nanoseconds of one call in each batch. Batches at the same place are a pair, timed right after one another.
#[derive(Default)]
pub struct Samples {
    pub ours: Vec<f64>,
    pub second: Vec<f64>,
    /// The loop around the calls, with no call in it.
    pub alone: Vec<f64>,
}

/// The time that a side takes for a number of runs through what it has to do.
pub type Timed<S> = fn(&mut S, usize) -> Duration;

impl Meter {
    /// The measurement that is made.
    pub fn full() -> Self {
        Self {
            passes: 5,
            rounds: 101,
            batch: Duration::from_micros(50),
        }
    }

    /// One that only shows that all of it runs.
    pub fn quick() -> Self {
        Self {
            passes: 1,
            rounds: 3,
            batch: Duration::from_micros(2),
        }
    }

    /// Measures the calls of a scene, after a check that both sides answer and change the same.
    pub fn calls<C: Call, const T: usize, const M: usize>(
        &self,
        n: usize,
        expect: Expect,
        prepare: fn(usize) -> Scene<C, T, M>,
    ) -> Samples {
        check(n, expect, prepare);
        let mut scene = prepare(n);
        let calls = scene.turns.len();
        let (ours, second) = (Scene::time::<Ours>, Scene::time::<Second>);
        self.compare(&mut scene, calls, ours, second, Scene::time::<Nobody>)
    }

    /// Times both sides on the same state in turn, each first in every other pair.
    pub fn compare<S>(
        &self,
        state: &mut S,
        calls: usize,
        ours: Timed<S>,
        second: Timed<S>,
        alone: Timed<S>,
    ) -> Samples {
        let times = self.times(state, ours).min(self.times(state, second));
        let each = |taken: Duration| taken.as_nanos() as f64 / (times * calls) as f64;
        let mut samples = Samples::default();
        for round in 0..self.rounds {
            if round % 2 == 0 {
                samples.ours.push(each(ours(state, times)));
                samples.second.push(each(second(state, times)));
            } else {
                samples.second.push(each(second(state, times)));
                samples.ours.push(each(ours(state, times)));
            }
            samples.alone.push(each(alone(state, times)));
        }
        samples
    }

    /// How often a side has to run to fill a batch. This warms up too.
    fn times<S>(&self, state: &mut S, side: Timed<S>) -> usize {
        let mut times = 1;
        side(state, times);
        while side(state, times) < self.batch && times < 1 << 16 {
            times *= 2;
        }
        times
    }
}

/// Calls that both sides make before they are timed, and those after which all of memory is compared.
const CHECKED: usize = 32;
const COMPARED: usize = 4;

/// Both sides make the first calls of a scene on worlds of their own: the answers are the same and the expected ones, and so is the
/// table after each, and memory after the first few and at the end. Undone, each call can be made again.
fn check<C: Call, const T: usize, const M: usize>(
    n: usize,
    expect: Expect,
    prepare: fn(usize) -> Scene<C, T, M>,
) {
    let (mut one, mut two) = (prepare(n), prepare(n));
    for (place, turn) in one.turns.iter().take(CHECKED).enumerate() {
        let (table1, memory1) = one.world.slices();
        let (table2, memory2) = two.world.slices();
        let told = turn.call.ours(table1, memory1).told();
        assert_eq!(told, turn.call.second(table2, memory2).told());
        match (told.answer, expect) {
            (second::Answer::Refused { number, .. }, Expect::Refused(expected)) => {
                assert_eq!(number, expected)
            }
            (second::Answer::Refused { number, .. }, _) => panic!("refused with {number}"),
            (_, Expect::Refused(expected)) => panic!("not refused with {expected}"),
            (_, Expect::Accepted) => (),
        }
        assert!(table1 == table2);
        assert!(place >= COMPARED || memory1 == memory2);
        turn.undo(table1, memory1);
        turn.undo(table2, memory2);
    }
    assert!(one.world.slices() == two.world.slices());
}
