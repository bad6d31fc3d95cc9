//! Energies at their bound: as many points as a build can have, each with the largest energy. Their sum is 2^60.

use super::outcome::Request;
use crate::{
    package::needed,
    report::{other, Group},
};
use columns::Given;
use options::{Options, MOST_ENERGY, MOST_POINTS, USUAL};

/// The sum of all of them.
const TOTAL: u128 = 1 << 60;

/// Lamps in even steps: some clusters at zoom 1, and one of all at zoom 0.
pub fn at_their_bound() -> Group {
    let mut group = Group::new("tables, energies at their bound");
    let options = Options { max_zoom: 1, radius: 1_000.0, ..USUAL };
    let column = |step: usize| (0..MOST_POINTS).map(|i| part(i * step)).collect::<Vec<f64>>();
    let (xs, ys) = (column(648_055), column(400_503));
    let energies = vec![MOST_ENERGY; MOST_POINTS];
    let given = Given { xs: &xs, ys: &ys, energies: &energies };
    let lengths = needed(&options, MOST_POINTS);
    let outcome = Request { options: &options, given, lengths }.made();
    let tables = rust_builds::patched::tables(&options, &given);
    group.compare(|| "beside the patched Rust".to_string(), outcome.is_not(&tables));
    for (zoom, total) in outcome.totals() {
        group.compare(|| format!("table {zoom}"), other("energies", TOTAL, total));
    }
    let one = tables.columns.energy.last().map(|energy| u128::from(*energy));
    group.compare(|| "the last entry".to_string(), other("energy", Some(TOTAL), one));
    group
}

/// A place in [0,1) by the lowest bits of a number.
fn part(number: usize) -> f64 {
    (number % MOST_POINTS) as f64 / MOST_POINTS as f64
}
