//! Options on either side of each bound, one at a time: refused, or built as the Rust does.

use super::refusals::{judge, roomy, spread, Asked};
use crate::report::Group;
use options::{Options, Plane, Range, UNIT, USUAL};
use points::odd::{BELOW_1, INF, MAX, NAN, NOT_FINITE, TINY};

const ABOVE_65536: f64 = f64::from_bits(0x40f0_0000_0000_0001);

pub fn run() -> Group {
    let mut group = Group::new("tables, options at their bounds");
    let mut all = numbers();
    all.extend(ranges().into_iter().map(Plane::Cartesian).map(|plane| Options { plane, ..USUAL }));
    all.push(Options { plane: Plane::Globe, ..USUAL });
    for options in all {
        for count in [1, 7] {
            let (points, lengths) = (spread(count), roomy(&options, count));
            judge(&Asked { options, points, lengths }, &mut group);
        }
    }
    group
}

/// Each of the plain numbers at its bounds and past them.
fn numbers() -> Vec<Options> {
    let mut all = Vec::new();
    for node_size in [0, 1, 65_535, 65_536, 65_537, 1 << 32, (1 << 32) + 1, usize::MAX] {
        all.push(Options { node_size, ..USUAL });
    }
    for min_zoom in [0, 1, 15, 16, 17, 29, 30, 31, 32, 254, 255] {
        for max_zoom in [0, 1, 15, 16, 17, 29, 30, 31, 32, 254, 255] {
            all.push(Options { min_zoom, max_zoom, ..USUAL });
        }
    }
    all.extend((0..=255).map(|min_points| Options { min_points, ..USUAL }));
    for radius in [-1.0, -TINY, -0.0, 0.0, TINY, 65_536.0, ABOVE_65536, 65_537.0, -MAX, MAX] {
        all.push(Options { radius, ..USUAL });
    }
    for extent in
        [-512.0, -0.0, 0.0, TINY, 0.5, BELOW_1, 1.0, 65_536.0, ABOVE_65536, 65_537.0, -MAX, MAX]
    {
        all.push(Options { extent, ..USUAL });
    }
    for wild in NOT_FINITE {
        all.push(Options { radius: wild, ..USUAL });
        all.push(Options { extent: wild, ..USUAL });
    }
    all
}

/// Each number of a range in turn, and what is derived from two of them.
fn ranges() -> Vec<Range> {
    let mut all = Vec::new();
    let derived = Range { offset: None, scale: None, ..UNIT };
    for v in [NAN, INF, -INF, MAX, -MAX, -1.0, -0.0, 0.0, TINY, 0.5, 1.0, 2.0] {
        for base in [UNIT, derived, Range { offset: None, ..UNIT }, Range { scale: None, ..UNIT }] {
            all.push(Range { min_x: v, ..base });
            all.push(Range { min_y: v, ..base });
            all.push(Range { min_x: v, min_y: v, ..base });
            all.push(Range { max_x: v, ..base });
            all.push(Range { max_y: v, ..base });
            all.push(Range { max_x: v, max_y: v, ..base });
            all.push(Range { offset: Some(v), ..base });
            all.push(Range { scale: Some(v), ..base });
        }
    }
    // Finite numbers, of which a scale is derived that is not.
    all.push(Range { min_x: -MAX, max_y: MAX, ..derived });
    all
}
