//! Rings: at entries, with an edge on another, anywhere, far out.

use crate::Scene;
use points::odd::{NORMAL, NOT_FINITE, TINY};
use questions::Question;
use splitmix::Splitmix;

/// A ring of a kind.
pub fn question(scene: &Scene, kind: usize, source: &mut Splitmix) -> Question {
    let zoom = scene.zoom(source);
    let [x, y] = scene.spot(zoom, source);
    let circle = match kind % 8 {
        0 => [x, y, 0.0],
        1 => [x, y, 0.5_f64.powi(source.below(40) as i32)],
        2 => [source.unit(), source.unit(), 0.3 * source.unit()],
        3 => {
            let [u, v] = scene.spot(zoom, source);
            [x, y, source.pick(&[u - x, v - y]).abs()]
        }
        4 => [1.0, y, 0.75],
        5 => [3.0 * source.unit() - 1.0, 3.0 * source.unit() - 1.0, 3.0 * source.unit()],
        6 => source.pick(&[
            [1e300, 0.0, 1e200],
            [x, y, f64::MAX],
            [-f64::MAX, y, f64::MAX],
            [x, y, 1e-300],
            [-2.0, y, 2.0 + x],
            [x, y, -0.0],
        ]),
        _ => {
            let radius = scene.state.options.radius / scene.state.options.extent;
            [x, y, radius * 0.5_f64.powi(i32::from(zoom.min(31)))]
        }
    };
    match source.below(24) {
        0 => Question::Ring { zoom, circle: wrong(circle, source) },
        _ => Question::Ring { zoom, circle },
    }
}

/// A ring with a number that is not finite, or a radius below 0.
fn wrong(mut circle: [f64; 3], source: &mut Splitmix) -> [f64; 3] {
    let at = source.below(3) as usize;
    circle[at] = source.pick(&NOT_FINITE);
    match source.below(2) {
        0 => circle,
        _ => [0.5, 0.5, source.pick(&[-1.0, -NORMAL, -TINY])],
    }
}
