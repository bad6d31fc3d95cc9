//! Latitudes, and the y that the Rust makes of each. The Rust's conversion is private, so that points at these
//! latitudes are loaded and the finest table is read.

use options::{Options, Plane, USUAL};
use splitmix::Splitmix;
use std::sync::OnceLock;

/// A latitude and its y.
pub type Latitude = [f64; 2];

/// The poles, the equator, the edges of the usual map, one step of the format beside some, and any.
pub fn latitudes() -> &'static [Latitude] {
    static ALL: OnceLock<Vec<Latitude>> = OnceLock::new();
    ALL.get_or_init(|| {
        let mut source = Splitmix(7);
        let mut all =
            vec![90.0, -90.0, 0.0, -0.0, 85.0511287798066, -85.0511287798066, 45.0, -45.0];
        all.extend([90.0_f64.next_down(), (-90.0_f64).next_up(), 1e-300, 60.0, -33.3]);
        all.extend((0..48).map(|_| 180.0 * source.unit() - 90.0));
        let ys = ys(&all);
        all.into_iter().zip(ys).map(|(latitude, y)| [latitude, y]).collect()
    })
}

/// The Rust's y of each latitude.
fn ys(latitudes: &[f64]) -> Vec<f64> {
    let options = Options { min_zoom: 30, max_zoom: 30, radius: 0.0, plane: Plane::Globe, ..USUAL };
    let loaded = rust_builds::patched::loaded(&options, &vec![0.0; latitudes.len()], latitudes);
    let finest = rust_builds::patched::tables_of(&loaded).next().expect("the finest table");
    finest.rows().map(|row| row.entry.y).collect()
}
