//! The upper panel: our time by Rust's, a bar a call.

use super::svg::{Anchor, Svg, BLUE, GREY, INK, PALE, RUST};
use super::WIDTH;
use crate::cases::Case;
use crate::report::numbers::ratio;
use crate::results::{Results, Row, GREATEST};

const LEFT: f64 = 250.0;
const RIGHT: f64 = 830.0;
const STEP: f64 = 22.0;
/// A longer bar is cut off, and only its number tells.
const LONGEST: f64 = 2.5;
/// Up to here a ratio is as good as one.
const ALLOWED: f64 = 1.1;

/// Draws it with its top here, and gives its bottom.
pub fn draw(svg: &mut Svg, results: &Results, top: f64) -> f64 {
    let refused = results
        .refused
        .iter()
        .filter(|row| row.what.name.contains("16"));
    let rows = results.accepted.iter().chain(refused);
    let rows: Vec<&Row<Case>> = rows.filter(|row| row.size == GREATEST).collect();
    let longest = rows.iter().map(|row| row.ratio()).fold(1.4, f64::max);
    let scale = (RIGHT - LEFT) / longest.min(LONGEST);

    svg.text(
        (20.0, top + 16.0),
        Anchor::Start,
        17,
        INK,
        "Time of a call: the proved library by safe Rust",
    );
    let note = "N = 4,096, M = 8,192, warm; a shorter bar is a faster library; brown: above 1.1";
    svg.text((20.0, top + 36.0), Anchor::Start, 13, GREY, note);
    let first = top + 72.0;
    let bottom = first + STEP * rows.len() as f64;
    axis(svg, (first, bottom), scale);
    for (row, place) in rows.iter().zip(0..) {
        bar(svg, row, first + STEP * f64::from(place), scale);
    }
    reference(svg, (first, bottom), LEFT + scale, Anchor::End, "1.0 ");
    reference(
        svg,
        (first, bottom),
        LEFT + scale * ALLOWED,
        Anchor::Start,
        " 1.1",
    );
    bottom + 44.0
}

fn bar(svg: &mut Svg, row: &Row<Case>, top: f64, scale: f64) {
    let length = (row.ratio() * scale).min(RIGHT - LEFT);
    let colour = if row.ratio() > ALLOWED { RUST } else { BLUE };
    svg.text(
        (LEFT - 8.0, top + 15.0),
        Anchor::End,
        13,
        INK,
        row.what.name,
    );
    svg.block((LEFT, top + 4.0), (length, STEP - 8.0), colour);
    if row.ratio() * scale > RIGHT - LEFT {
        let cut = RIGHT - 14.0;
        svg.line(
            (cut - 3.0, top + 20.0),
            (cut + 5.0, top + 2.0),
            4.0,
            "#ffffff",
        );
    }
    let beside = (WIDTH - 20.0, top + 15.0);
    svg.text(beside, Anchor::End, 13, INK, &ratio(row.ratio()));
}

/// The scale below the bars, in halves.
fn axis(svg: &mut Svg, (top, bottom): (f64, f64), scale: f64) {
    let mut value = 0.0;
    while LEFT + scale * value <= RIGHT + 0.5 {
        let x = LEFT + scale * value;
        svg.line((x, top), (x, bottom), 1.0, PALE);
        svg.text(
            (x, bottom + 16.0),
            Anchor::Middle,
            12,
            GREY,
            &format!("{value:.1}"),
        );
        value += 0.5;
    }
    let middle = ((LEFT + RIGHT) / 2.0, bottom + 34.0);
    svg.text(
        middle,
        Anchor::Middle,
        13,
        INK,
        "ours / Rust, ratio of times",
    );
}

/// A line through all bars, with its value above.
fn reference(svg: &mut Svg, (top, bottom): (f64, f64), x: f64, anchor: Anchor, value: &str) {
    svg.line((x, top - 6.0), (x, bottom), 1.2, INK);
    svg.text((x, top - 10.0), anchor, 12, INK, value.trim());
}
