//! Points in a caller's coordinates.

use crate::Points;
use options::{Plane, Range};

impl Points {
    /// The columns that a caller of the Rust has for these points, of which a build makes them again, if for
    /// rounding. Converted they are within [0,1]. On the globe the second one holds latitudes.
    pub fn placed(&self, plane: &Plane) -> [Vec<f64>; 2] {
        let Points { xs, ys, .. } = self;
        match plane {
            Plane::Globe => [column(xs, |x| (x - 0.5) * 360.0), column(ys, |y| 90.0 - 180.0 * y)],
            Plane::Cartesian(range) => {
                [xs, ys].map(|parts| column(parts, |part| inside(range, part)))
            }
        }
    }
}

fn column(parts: &[f64], place: impl Fn(f64) -> f64) -> Vec<f64> {
    parts.iter().map(|part| place(*part)).collect()
}

/// The coordinate at this part of a range. One that is rounded out of it is brought back.
fn inside(range: &Range, part: f64) -> f64 {
    let (offset, scale) = (range.offset(), range.scale());
    if offset == 0.0 {
        // The sign of a zero is kept.
        return part * scale;
    }
    let mut v = offset + part * scale;
    while range.normalize(v) > 1.0 {
        v = v.next_down();
    }
    while range.normalize(v) < 0.0 {
        v = v.next_up();
    }
    v
}
