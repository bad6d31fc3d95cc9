//! Points at the rounded edge of the ring by which a zoom makes its clusters.

use options::{Options, USUAL};
use splitmix::Splitmix;

/// How many steps of the format a number may be moved.
const STEPS: u64 = 3;

/// A number up to three steps of the format up or down from this one.
pub fn steps_beside(v: f64, source: &mut Splitmix) -> f64 {
    let up = source.below(2) == 0;
    let step = |v: f64, _| if up { v.next_up() } else { v.next_down() };
    (0..source.below(STEPS + 1)).fold(v, step)
}

/// A place in [0,1] that is often much closer to 0 than 1 is, so that its steps are finer than those of the distance
/// between the two.
pub fn fine(source: &mut Splitmix) -> f64 {
    source.unit() / (1_u64 << source.below(10)) as f64
}

/// Options and so many points, Cartesian. The ring of max_zoom around the first point has an edge, as it is rounded,
/// at which most of the others lie, or a few steps beside it.
pub fn reached(count: usize, source: &mut Splitmix) -> (Options, [Vec<f64>; 2]) {
    let (edge, other) = (fine(source), source.unit());
    let first = source.pick(&[1.0, 1.0, (1.0 + edge) / 2.0]);
    let max_zoom = source.below(3) as u8;
    let options = Options {
        min_zoom: source.below(u64::from(max_zoom) + 1) as u8,
        max_zoom,
        min_points: source.pick(&[2, 2, 2, 3, 255]),
        radius: (first - edge).abs() * f64::from(1_u32 << max_zoom),
        extent: 1.0,
        node_size: source.pick(&[1, 1, 2, 3, 8]),
        ..USUAL
    };
    let mut along = vec![first];
    let mut across = vec![other];
    for _ in 1..count {
        let anywhere = source.below(6) == 0;
        let place = if anywhere { source.unit() } else { edge };
        along.push(steps_beside(place, source).clamp(0.0, 1.0));
        across.push(other);
    }
    match source.below(2) {
        0 => (options, [along, across]),
        _ => (options, [across, along]),
    }
}
