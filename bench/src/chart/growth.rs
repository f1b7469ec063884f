//! The lower panel: our time of a call as N grows, both axes logarithmic.

use super::labels::placed;
use super::svg::{Anchor, Svg, BLUE, GREY, INK, PALE, RUST};
use crate::cases::ACCEPTED;
use crate::report::numbers::thousands;
use crate::results::{named, Results, GROWTH};

const LEFT: f64 = 80.0;
const RIGHT: f64 = 650.0;
const HEIGHT: f64 = 440.0;
/// What labels need, one below the other.
const APART: f64 = 17.0;

/// From numbers to places in the picture.
struct Axes {
    top: f64,
    /// The powers of ten that times are between.
    low: i32,
    high: i32,
}

impl Axes {
    fn x(&self, n: usize) -> f64 {
        let steps = (n as f64 / GROWTH[0] as f64).log2();
        LEFT + (RIGHT - LEFT) * steps / (GROWTH.len() - 1) as f64
    }

    fn y(&self, time: f64) -> f64 {
        let part = (time.log10() - f64::from(self.low)) / f64::from(self.high - self.low);
        self.top + HEIGHT * (1.0 - part)
    }
}

/// Draws it with its top here, and gives its bottom.
pub fn draw(svg: &mut Svg, results: &Results, top: f64) -> f64 {
    svg.text(
        (20.0, top + 16.0),
        Anchor::Start,
        17,
        INK,
        "Growth with the table",
    );
    let note =
        "The library's time of an accepted call, warm; brown: calls that look through the table";
    svg.text((20.0, top + 36.0), Anchor::Start, 13, GREY, note);
    let times = || results.accepted.iter().map(|row| row.ours());
    let axes = Axes {
        top: top + 56.0,
        low: times().fold(f64::MAX, f64::min).log10().floor() as i32,
        high: times().fold(0.0, f64::max).log10().ceil() as i32,
    };
    grid(svg, &axes);
    lines(svg, &axes, results);
    axes.top + HEIGHT + 56.0
}

fn grid(svg: &mut Svg, axes: &Axes) {
    let bottom = axes.top + HEIGHT;
    for power in axes.low..=axes.high {
        let y = axes.y(10f64.powi(power));
        svg.line((LEFT, y), (RIGHT, y), 1.0, PALE);
        let time = thousands(10u64.pow(power.max(0) as u32));
        svg.text((LEFT - 8.0, y + 4.0), Anchor::End, 12, GREY, &time);
    }
    for n in GROWTH {
        let x = axes.x(n);
        svg.line((x, axes.top), (x, bottom), 1.0, PALE);
        svg.text(
            (x, bottom + 16.0),
            Anchor::Middle,
            12,
            GREY,
            &thousands(n as u64),
        );
    }
    let below = ((LEFT + RIGHT) / 2.0, bottom + 36.0);
    svg.text(below, Anchor::Middle, 13, INK, "N, frames with an entry");
    svg.upwards(
        (24.0, axes.top + HEIGHT / 2.0),
        13,
        INK,
        "time of a call, ns",
    );
}

/// The lines, each with its name at its right end: calls that look through the table in one colour, the others in another.
fn lines(svg: &mut Svg, axes: &Axes, results: &Results) {
    let drawn = ACCEPTED.map(|case| {
        let rows = named(&results.accepted, case.name);
        let points = rows
            .iter()
            .map(|row| (axes.x(row.size), axes.y(row.ours())));
        (case.name, points.collect::<Vec<_>>())
    });
    let ends: Vec<f64> = drawn
        .iter()
        .map(|(_, points)| points[points.len() - 1].1)
        .collect();
    let lowest = axes.top + HEIGHT - APART / 2.0;
    for ((name, points), label) in drawn.iter().zip(placed(&ends, APART, lowest)) {
        let grows = name.starts_with("PFIX") || name.starts_with("CENSUS");
        let colour = if grows { RUST } else { BLUE };
        let end = points[points.len() - 1];
        svg.path(points, 1.8, colour);
        svg.line(end, (RIGHT + 22.0, label), 0.8, GREY);
        svg.text((RIGHT + 26.0, label + 4.0), Anchor::Start, 13, colour, name);
    }
}
