//! What was measured.

use crate::cases::{Case, ACCEPTED, REFUSED, SPREAD};
use crate::loops::{Loop, LOOPS};
use crate::meter::{Meter, Samples};
use crate::pages::PAGES;

/// The sizes that the tables show: N.
pub const SIZES: [usize; 3] = [8, 512, 4096];
/// The sizes at which growth is measured.
pub const GROWTH: [usize; 10] = [8, 16, 32, 64, 128, 256, 512, 1024, 2048, 4096];
/// The greatest N.
pub const GREATEST: usize = 4096;
/// Frames that fit into the first cache together, and frames that fit into the second.
pub const L1: usize = 4;
pub const L2: usize = 64;

/// Something that was measured at a size: N, or the number of frames that a loop works on in turn.
pub struct Row<What> {
    pub what: What,
    pub size: usize,
    samples: Samples,
}

/// All of it.
pub struct Results {
    pub accepted: Vec<Row<Case>>,
    pub refused: Vec<Row<Case>>,
    pub spread: Vec<Row<Case>>,
    pub pages: Vec<Row<Loop>>,
    pub loops: Vec<Row<Loop>>,
}

impl Results {
    /// Measures everything, in passes over the whole list: what disturbs the machine for a while disturbs a part of each row.
    pub fn measured(meter: &Meter) -> Self {
        let mut results = Self {
            accepted: rows(&ACCEPTED, &GROWTH),
            refused: rows(&REFUSED, &SIZES),
            spread: rows(&SPREAD, &[GREATEST]),
            pages: rows(&PAGES, &[L2]), // so many that one run of the faster side can be timed
            loops: rows(&LOOPS, &[L1, L2]),
        };
        for pass in 1..=meter.passes {
            eprintln!("bench: pass {pass} of {}", meter.passes);
            let calls = results.accepted.iter_mut();
            for row in calls.chain(&mut results.refused).chain(&mut results.spread) {
                row.samples.extend((row.what.measure)(meter, row.size));
            }
            for row in results.pages.iter_mut().chain(&mut results.loops) {
                row.samples.extend((row.what.measure)(meter, row.size));
            }
        }
        results
    }
}

fn rows<What: Copy>(list: &[What], sizes: &[usize]) -> Vec<Row<What>> {
    let pairs = list
        .iter()
        .flat_map(|&what| sizes.iter().map(move |&size| (what, size)));
    let row = |(what, size)| Row {
        what,
        size,
        samples: Samples::default(),
    };
    pairs.map(row).collect()
}

impl Samples {
    fn extend(&mut self, more: Samples) {
        self.ours.extend(more.ours);
        self.second.extend(more.second);
        self.alone.extend(more.alone);
    }
}

impl<What> Row<What> {
    /// Our time of one call, or of the one call where all is ours, in nanoseconds.
    pub fn ours(&self) -> f64 {
        quantile(self.samples.ours.clone(), 0.5)
    }

    /// The time of what it is held against: the second implementation's, mostly.
    pub fn second(&self) -> f64 {
        quantile(self.samples.second.clone(), 0.5)
    }

    /// The part of both that is the loop around the calls and what it puts back.
    pub fn alone(&self) -> f64 {
        quantile(self.samples.alone.clone(), 0.5)
    }

    /// Ours by the second's: the median over the pairs.
    pub fn ratio(&self) -> f64 {
        quantile(self.ratios(), 0.5)
    }

    /// Between which ratios half of the pairs are.
    pub fn middle(&self) -> (f64, f64) {
        (quantile(self.ratios(), 0.25), quantile(self.ratios(), 0.75))
    }

    /// How wide that is, as a part of the median.
    pub fn width(&self) -> f64 {
        let (low, high) = self.middle();
        (high - low) / self.ratio()
    }

    fn ratios(&self) -> Vec<f64> {
        let pairs = self.samples.ours.iter().zip(&self.samples.second);
        pairs.map(|(ours, second)| ours / second).collect()
    }
}

/// The value below which this part of the values is.
fn quantile(mut values: Vec<f64>, part: f64) -> f64 {
    values.sort_by(f64::total_cmp);
    values[((values.len() - 1) as f64 * part).round() as usize]
}

/// The rows of one name, by size.
pub fn named<'a>(rows: &'a [Row<Case>], name: &str) -> Vec<&'a Row<Case>> {
    rows.iter().filter(|row| row.what.name == name).collect()
}

#[cfg(test)]
mod tests {
    use super::quantile;

    #[test]
    fn quantiles() {
        let values = vec![5.0, 1.0, 4.0, 2.0, 3.0];
        assert_eq!(quantile(values.clone(), 0.5), 3.0);
        assert_eq!(quantile(values.clone(), 0.25), 2.0);
        assert_eq!(quantile(values, 1.0), 5.0);
    }
}
