//! Boxes: on the coordinates of lamps, beside them, anywhere, far out; across the date line.

use crate::{latitudes::latitudes, Scene};
use options::{Plane, Range};
use questions::Question;
use splitmix::Splitmix;

/// Longitudes that a turn around the globe, a half of it or a rounding makes special.
pub const ODD_LONGITUDES: [f64; 20] = [
    -180.00000000000006,
    180.0,
    540.0,
    1e15,
    -200.7,
    -180.0,
    179.99999999999997,
    -179.99999999999997,
    180.00000000000003,
    360.0,
    -360.0,
    0.0,
    -0.0,
    720.5,
    -540.0,
    1e300,
    -1e15,
    359.99999999999994,
    90.0,
    1e-300,
];

/// A box of a kind.
pub fn question(scene: &Scene, kind: usize, source: &mut Splitmix) -> Question {
    let mut corners = match scene.state.options.plane {
        Plane::Cartesian(range) => cartesian(scene, &range, kind, source),
        Plane::Globe => on_the_globe(scene, kind, source),
    };
    if source.below(24) == 0 {
        let wrong = [f64::NAN, f64::INFINITY, f64::NEG_INFINITY, -0.25, 1.5];
        corners[source.below(4) as usize] = source.pick(&wrong);
    }
    // Boxes that end at a lamp, or beside it, where the lamps are.
    let zoom = if kind % 8 == 5 { u8::MAX } else { scene.zoom(source) };
    Question::Box { zoom, corners }
}

/// Corners in the coordinates of a range.
fn cartesian(scene: &Scene, range: &Range, kind: usize, source: &mut Splitmix) -> [f64; 4] {
    let (offset, scale) = (range.offset(), range.scale());
    let [x, u] = [(); 2].map(|()| source.pick(scene.xs));
    let [y, v] = [(); 2].map(|()| source.pick(scene.ys));
    let between = [x.min(u), y.min(v), x.max(u), y.max(v)];
    match kind % 8 {
        0 => between,
        1 => {
            let [x, y, u, v] = [(); 4].map(|()| offset + (1.5 * source.unit() - 0.25) * scale);
            [x.min(u), y.min(v), x.max(u), y.max(v)]
        }
        2 => [x, y, x, y],
        3 => [x.max(u), y.min(v), x.min(u), y.max(v)],
        4 => source.pick(&[
            [offset, offset, offset + scale, offset + scale],
            [offset - scale, offset - scale, offset + 2.0 * scale, offset + 2.0 * scale],
            [-f64::MAX, -f64::MAX, f64::MAX, f64::MAX],
            [-f64::MAX, y.min(v), x.max(u), f64::MAX],
        ]),
        5 => between.map(|edge| source.pick(&[edge.next_down(), edge, edge.next_up()])),
        6 => source.pick(&[[x, -f64::MAX, x, f64::MAX], [-f64::MAX, y, f64::MAX, y]]),
        _ => {
            let half = scale * 0.5_f64.powi(1 + source.below(12) as i32);
            [x - half, y - half, x + half, y + half]
        }
    }
}

/// Longitudes, and y of latitudes that the Rust can be given.
fn on_the_globe(scene: &Scene, kind: usize, source: &mut Splitmix) -> [f64; 4] {
    let [w, e] = longitudes(scene, kind, source);
    let y = |source: &mut Splitmix| match source.below(2) {
        0 => source.pick(scene.ys),
        _ => source.pick(latitudes())[1],
    };
    let [y, v] = [(); 2].map(|()| y(source));
    match source.below(6) {
        0 => [w, y, e, v],
        1 | 2 => [w, y.min(v), e, y.max(v)],
        _ => [w, 0.0, e, 1.0],
    }
}

/// West and east: lamps' longitudes, odd ones, any; about a turn apart.
fn longitudes(scene: &Scene, kind: usize, source: &mut Splitmix) -> [f64; 2] {
    let lamp = |source: &mut Splitmix| source.pick(scene.xs);
    let odd = |source: &mut Splitmix| source.pick(&ODD_LONGITUDES);
    let any = |source: &mut Splitmix| 1_440.0 * source.unit() - 720.0;
    match kind % 8 {
        0 => [lamp(source), lamp(source)],
        1 => [odd(source), odd(source)],
        2 => [any(source), any(source)],
        3 => [lamp(source), odd(source)],
        4 => [odd(source), lamp(source)],
        5 => {
            let [w, e] = [lamp(source), lamp(source)];
            let across = source.below(3) != 0;
            let [w, e] = if across { [w.max(e), w.min(e)] } else { [w, e] };
            let turn = source.pick(&[360.0, -360.0, 720.0, 0.0]);
            [w, e].map(|v| source.pick(&[v.next_down(), v, v, v.next_up()]) + turn)
        }
        6 => {
            let w = any(source);
            [w, w + source.pick(&[360.0, 359.99999999999994, 360.00000000000006, -0.0, 180.0])]
        }
        _ => {
            let w = lamp(source);
            [w - 0.01 * source.unit(), w + 0.01 * source.unit()]
        }
    }
}
