//! The port as a caller from Rust has it: what the package builds of points.

use crate::points::Points;
use columns::{with_columns, Lent};
use options::UNIT;
use reachvolem::{CoordinateSystem, DataRange, Options, Supercluster};

/// These points, loaded with the usual options: those of the package, on the plan of the oracle's.
pub fn loaded(points: &Points) -> Supercluster {
    let options::Range { min_x, min_y, max_x, max_y, offset, scale } = UNIT;
    let range = DataRange { min_x, min_y, max_x, max_y, offset, scale };
    let coordinate_system = CoordinateSystem::Cartesian { range };
    let options = Options { coordinate_system, ..Options::default() };
    let Points { xs, ys, energies } = points;
    Supercluster::load(options, xs, ys, energies).expect("a build that is accepted")
}

/// The columns of a build as the oracle has them: they end with the last table.
pub fn columns(lamps: &Supercluster) -> Lent<'_> {
    macro_rules! lent {
        ([$($entry:ident: $number:ty),*] [$($slot:ident: $kind:ty),*] $columns:ident) => {
            Lent { $($entry: $columns.$entry,)* $($slot: $columns.$slot,)* }
        };
    }
    let columns = lamps.columns();
    with_columns!(lent! columns)
}
