//! Options that SCOPE allows: its bounds, and usual numbers between them.

use crate::{Options, Plane, Range, UNIT};
use splitmix::Splitmix;

/// From none to the most.
pub const MIN_POINTS: [u8; 9] = [0, 1, 2, 3, 5, 12, 100, 254, 255];

/// From none to the greatest.
pub const RADII: [f64; 8] = [0.0, f64::MIN_POSITIVE, 0.5, 40.0, 61.7, 512.0, 8_192.0, 65_536.0];

/// From the least to the greatest.
pub const EXTENTS: [f64; 6] = [1.0, 3.3, 256.0, 512.0, 4_096.0, 65_536.0];

/// The least, odd and even, the usual one, the greatest.
pub const NODE_SIZES: [usize; 6] = [1, 2, 3, 8, 64, 65_535];

/// min_zoom and max_zoom: one zoom, some, all; at either end and between.
pub const ZOOMS: [[u8; 2]; 12] = [
    [0, 0],
    [0, 1],
    [0, 5],
    [0, 16],
    [0, 30],
    [1, 1],
    [3, 9],
    [7, 16],
    [16, 16],
    [16, 30],
    [29, 30],
    [30, 30],
];

/// How many kinds of coordinate systems there are.
pub const PLANES: usize = 8;

/// Options with each part picked by chance.
pub fn any(source: &mut Splitmix) -> Options {
    let [min_zoom, max_zoom] = source.pick(&ZOOMS);
    // Two things of one number: its lowest bits and another one.
    let bits = source.bits();
    let kind = (bits % PLANES as u64) as usize;
    Options {
        min_zoom,
        max_zoom,
        min_points: source.pick(&MIN_POINTS),
        radius: source.pick(&RADII),
        extent: source.pick(&EXTENTS),
        node_size: source.pick(&NODE_SIZES),
        plane: plane(kind, source),
        longitude_strips_only: bits >> 32 & 1 == 1,
    }
}

/// Options as users have them, of which clusters come at many zooms.
pub fn ordinary(source: &mut Splitmix) -> Options {
    let [min_zoom, max_zoom] = source.pick(&[[0, 16], [0, 16], [0, 5], [0, 30], [3, 9], [7, 24]]);
    Options {
        min_zoom,
        max_zoom,
        min_points: source.pick(&[2, 2, 3, 4, 7]),
        radius: 10.0 + 300.0 * source.unit(),
        extent: source.pick(&[256.0, 512.0, 1_000.0]),
        ..any(source)
    }
}

/// The options of a build of this number: half of them as users have them, and half any.
pub fn in_turn(number: usize, source: &mut Splitmix) -> Options {
    match number % 2 {
        0 => ordinary(source),
        _ => any(source),
    }
}

/// A coordinate system of a kind; its numbers are picked by chance.
pub fn plane(kind: usize, source: &mut Splitmix) -> Plane {
    let offset = source.pick(&[0.0, -180.0, 1e6, -0.1, 1e-3, 123.456]);
    let scale = source.pick(&[1.0, 360.0, 0.3, 1e6, 65_536.0, 7.7]);
    // What the minima and maxima say otherwise than offset and scale is not looked at where these are given.
    let range =
        range([offset, offset + scale / 4.0], [offset + scale / 2.0, offset + scale], source);
    match kind % PLANES {
        0 => Plane::Cartesian(UNIT),
        1 | 2 => Plane::Globe,
        3 => Plane::Cartesian(Range { offset: Some(offset), scale: Some(scale), ..range }),
        4 => Plane::Cartesian(Range { offset: Some(offset), ..range }),
        5 => Plane::Cartesian(Range { scale: Some(scale), ..range }),
        6 => Plane::Cartesian(Range { offset: Some(-1e300), scale: Some(1e301), ..range }),
        _ => Plane::Cartesian(range),
    }
}

/// A range of these minima and maxima, on either axis.
fn range(mut minima: [f64; 2], mut maxima: [f64; 2], source: &mut Splitmix) -> Range {
    if source.below(2) == 0 {
        minima.reverse();
    }
    if source.below(2) == 0 {
        maxima.reverse();
    }
    let ([min_x, min_y], [max_x, max_y]) = (minima, maxima);
    Range { min_x, min_y, max_x, max_y, offset: None, scale: None }
}
