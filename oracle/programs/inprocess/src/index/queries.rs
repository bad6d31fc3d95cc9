//! Queries to an index: at its own points, on their coordinates, beside them by one step of the
//! format, anywhere, and far out.

use reachvolem::lent::{Index as Lent, Reply};
use splitmix::Splitmix;
use std::ops::Range;

/// A question to an index.
#[derive(Clone, Copy, Debug)]
pub enum Query {
    /// Least x, least y, greatest x, greatest y.
    Range([f64; 4]),
    /// x and y of the centre, and the radius.
    Within([f64; 3]),
}

impl Query {
    /// The search of the port.
    pub fn ask(&self, lent: &Lent, out: &mut [u32]) -> Reply {
        match *self {
            Query::Range(corners) => lent.range(corners, out),
            Query::Within(circle) => lent.within(circle, out),
        }
    }

    /// The first slot by the port's cursor.
    pub fn first(&self, lent: &Lent) -> Reply {
        match *self {
            Query::Range(corners) => lent.range_first(corners),
            Query::Within(circle) => lent.within_first(circle),
        }
    }

    /// The slot after this one by the port's cursor.
    pub fn after(&self, lent: &Lent, slot: usize) -> Reply {
        match *self {
            Query::Range(corners) => lent.range_after(corners, slot),
            Query::Within(circle) => lent.within_after(circle, slot),
        }
    }

    /// Its numbers.
    pub fn numbers(&self) -> &[f64] {
        match self {
            Query::Range(corners) => corners,
            Query::Within(circle) => circle,
        }
    }
}

/// Queries to these columns: a number stands for a kind, and 16 in a row are one of each.
pub fn around(lent: &Lent, numbers: Range<usize>, source: &mut Splitmix) -> Vec<Query> {
    let one = |number: usize| match number % 2 {
        0 => Query::Within(circle(lent, number / 2, source)),
        _ => Query::Range(corners(lent, number / 2, source)),
    };
    numbers.map(one).collect()
}

/// One of the points in the columns.
fn point(lent: &Lent, source: &mut Splitmix) -> [f64; 2] {
    let slot = source.below(lent.count as u64) as usize;
    [lent.coords[2 * slot], lent.coords[2 * slot + 1]]
}

/// A circle of a kind.
fn circle(lent: &Lent, kind: usize, source: &mut Splitmix) -> [f64; 3] {
    let [x, y] = point(lent, source);
    match kind % 8 {
        0 => [x, y, 0.0],
        1 => [x, y, 1.0 / (1_u64 << source.below(60)) as f64],
        2 => [source.unit(), source.unit(), 0.3 * source.unit()],
        3 => {
            let [other_x, other_y] = point(lent, source);
            let radius = source.pick(&[other_x - x, other_y - y]).abs();
            [x, y, radius]
        }
        // SCOPE's rounded edge.
        4 => [1.0, y, 0.75],
        5 => [3.0 * source.unit() - 1.0, 3.0 * source.unit() - 1.0, 3.0 * source.unit()],
        6 => source.pick(&[
            [1e300, 0.0, 1e200],
            [x, y, f64::MAX],
            [-f64::MAX, y, f64::MAX],
            [x, y, 1e-300],
            [-2.0, y, 2.0 + x],
        ]),
        _ => [x, y, -0.0],
    }
}

/// A box of a kind.
fn corners(lent: &Lent, kind: usize, source: &mut Splitmix) -> [f64; 4] {
    let [x, y] = point(lent, source);
    let [u, v] = point(lent, source);
    match kind % 8 {
        0 => [x.min(u), y.min(v), x.max(u), y.max(v)],
        1 => {
            let [x, y, u, v] = [(); 4].map(|()| 1.5 * source.unit() - 0.25);
            [x.min(u), y.min(v), x.max(u), y.max(v)]
        }
        2 => [x, y, x, y],
        3 => [x.max(u), y.min(v), x.min(u), y.max(v)],
        4 => source.pick(&[[0.0, 0.0, 1.0, 1.0], [-f64::MAX, -f64::MAX, f64::MAX, f64::MAX]]),
        5 => beside([x.min(u), y.min(v), x.max(u), y.max(v)], source),
        6 => source.pick(&[[x, -1.0, x, 2.0], [-1.0, y, 2.0, y]]),
        _ => [-0.0, y.min(v), source.pick(&[0.0, -0.0, x]), y.max(v)],
    }
}

/// The same box with each edge moved by one step of the format, in or out, or left in place.
fn beside(corners: [f64; 4], source: &mut Splitmix) -> [f64; 4] {
    corners.map(|edge| source.pick(&[edge.next_down(), edge, edge.next_up()]))
}
