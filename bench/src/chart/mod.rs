//! The picture: ratios as bars, and growth with N as lines.

mod bars;
mod growth;
mod labels;
mod svg;

use crate::results::Results;
use svg::Svg;

const WIDTH: f64 = 900.0;

/// Both panels, one below the other.
pub fn picture(results: &Results) -> String {
    let mut svg = Svg::new();
    let bottom = bars::draw(&mut svg, results, 20.0);
    let bottom = growth::draw(&mut svg, results, bottom + 30.0);
    svg.finished(WIDTH, bottom)
}
