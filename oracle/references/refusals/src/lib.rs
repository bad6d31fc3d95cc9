//! An independent reference for what a build refuses, written from the scope: 'Bounds' and
//! 'Numbered replies', and from #108.

use columns::Given;
use options::{Options, Plane, MOST_ENERGY, MOST_POINTS};

/// A refusal: its number, and for 3 the first point outside, for 15 the first of too large an energy, otherwise 0.
#[derive(Clone, Copy, Debug, PartialEq, Eq)]
pub struct Refusal {
    pub number: u32,
    pub carried: usize,
}

/// The refusal of a build: 1, 2, 3, 15, 4, whichever holds first. Each lent column has room for at least so many
/// entries, two coordinates of the index being one, and one of them for no more.
pub fn refusal(options: &Options, given: &Given, room: usize) -> Option<Refusal> {
    let Given { xs, ys, energies } = *given;
    let plain = |number| Some(Refusal { number, carried: 0 });
    if !options.in_bounds() {
        return plain(1);
    }
    let uneven = ys.len() != xs.len() || energies.len() != xs.len();
    if uneven || xs.is_empty() || xs.len() > MOST_POINTS {
        return plain(2);
    }
    let outside = |(x, y): (&f64, &f64)| !in_unit(&converted(&options.plane, *x, *y));
    if let Some(carried) = xs.iter().zip(ys).position(outside) {
        return Some(Refusal { number: 3, carried });
    }
    if let Some(carried) = energies.iter().position(|energy| *energy > MOST_ENERGY) {
        return Some(Refusal { number: 15, carried });
    }
    if room < options.tables() * xs.len() {
        return plain(4);
    }
    None
}

/// A point in table units.
fn converted(plane: &Plane, x: f64, y: f64) -> [f64; 2] {
    match plane {
        Plane::Globe => [x / 360.0 + 0.5, y],
        Plane::Cartesian(range) => [range.normalize(x), range.normalize(y)],
    }
}

fn in_unit(point: &[f64; 2]) -> bool {
    point.iter().all(|v| (0.0..=1.0).contains(v))
}
