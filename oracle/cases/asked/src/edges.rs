//! Builds of a few lamps that lie on the edges of tiles, to the last bit and one step of the format beside them.

use crate::Build;
use options::{corners, Options, Plane, UNIT};
use splitmix::Splitmix;

/// So many lamps that all tiles are asked; none of them join.
const LAMPS: usize = 8;
const NEVER: u8 = 255;

/// One build: edges of tiles of the zooms 0 to 3.
pub fn build(source: &mut Splitmix) -> Build {
    let any = 300.0 * source.unit();
    let options = Options {
        min_zoom: 0,
        max_zoom: source.below(4) as u8,
        min_points: NEVER,
        radius: source.pick(&[61.7, 40.0, 0.3, 100.1, any]),
        extent: source.pick(&[512.0, 256.0, 1_000.0, 3.3]),
        plane: Plane::Cartesian(UNIT),
        ..corners::any(source)
    };
    let p = options.radius / options.extent;
    let mut points = [Vec::new(), Vec::new()];
    for _ in 0..LAMPS {
        let z = source.below(4) as u32;
        points[0].push(edge(p, z, source));
        points[1].push(edge(p, z, source));
    }
    Build::of(format!("{LAMPS} points on edges of tiles"), options, points)
}

/// An edge of a tile with its margin, or one of the strips, on one axis; sometimes its middle.
fn edge(p: f64, z: u32, source: &mut Splitmix) -> f64 {
    let z2 = f64::from(1_u32 << z);
    let at = source.below(1 << z) as f64;
    let edges = [
        (at - p) / z2,
        (at + 1.0 + p) / z2,
        (at + (1.0 + p)) / z2,
        1.0 - p / z2,
        p / z2,
        (at + 0.5) / z2,
    ];
    let edge = source.pick(&edges);
    source.pick(&[edge.next_down(), edge, edge, edge, edge.next_up()]).clamp(0.0, 1.0)
}
