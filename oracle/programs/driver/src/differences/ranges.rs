//! The derived offset and scale of range.rs where a number is NaN or two are zeros of both signs.

use super::{case, Case};
use crate::plain::{Range, UNIT};
use beside::judge::Judge;
use points::odd::NAN;
use std::hint::black_box;

pub fn cases<J: Judge>() -> Vec<Case> {
    vec![
        case("R1", || minima::<J>(NAN, 1.0, 3.0)),
        case("R2", || minima::<J>(1.0, NAN, 3.0)),
        case("R3", || minima::<J>(NAN, NAN, 3.0)),
        case("R4", || maxima::<J>(NAN, 4.0, 1.0)),
        case("R5", || maxima::<J>(4.0, NAN, 1.0)),
        case("R6", || maxima::<J>(NAN, NAN, 1.0)),
        case("R7", || either(minima::<J>(0.0, -0.0, -0.0), ["0", "-0"])),
        case("R8", || either(no_width::<J>(), ["inf", "-inf"])),
    ]
}

/// `v` normalised with the offset derived from these minima, and scale 1.
fn minima<J: Judge>(min_x: f64, min_y: f64, v: f64) -> String {
    let range = Range { min_x, min_y, offset: None, ..UNIT };
    normalized::<J>(range, v)
}

/// `v` normalised with the scale derived from these maxima, and offset 0.
fn maxima<J: Judge>(max_x: f64, max_y: f64, v: f64) -> String {
    let range = Range { max_x, max_y, scale: None, ..UNIT };
    normalized::<J>(range, v)
}

/// 1 normalised where every number of the range is a zero.
fn no_width<J: Judge>() -> String {
    let range =
        Range { min_x: 0.0, min_y: -0.0, max_x: -0.0, max_y: -0.0, offset: None, scale: None };
    normalized::<J>(range, 1.0)
}

/// `black_box` keeps the compiler from working the answer out by itself.
fn normalized<J: Judge>(range: Range, v: f64) -> String {
    J::normalize(&black_box(range), black_box(v)).to_string()
}

/// `0 or -0` where the outcome is one of the two: which of them may differ between machines.
fn either(found: String, allowed: [&str; 2]) -> String {
    match allowed.contains(&found.as_str()) {
        true => allowed.join(" or "),
        false => found,
    }
}
