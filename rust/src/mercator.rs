//! Between degrees and the map's square, in the original's formulas. **Not proved**: the proved library takes y as it is
//! given, and `sin`, `ln`, `exp` and `atan` are those of this machine.

use std::f64::consts::PI;

/// The y of a latitude on the map's square: 0 at the northern edge, 1 at the southern one. Latitudes beyond some 85.05 degrees
/// are on the edge. NaN stays NaN.
///
/// ```
/// use reachvolem::mercator::{latitude_of, y_of};
///
/// assert_eq!([90.0, 0.0, -90.0].map(y_of), [0.0, 0.5, 1.0]);
/// assert!((latitude_of(y_of(48.2)) - 48.2).abs() < 1e-12);
/// ```
pub fn y_of(latitude: f64) -> f64 {
    let sine = latitude.to_radians().sin();
    let ratio = (1.0 + sine) / (1.0 - sine);
    (0.5 - 0.25 * ratio.ln() / PI).clamp(0.0, 1.0)
}

/// The latitude of a y.
pub fn latitude_of(y: f64) -> f64 {
    let angle = (180.0 - y * 360.0) * PI / 180.0;
    360.0 * angle.exp().atan() / PI - 90.0
}

/// The longitude of an x of the tables.
///
/// ```
/// use reachvolem::mercator::longitude_of;
///
/// assert_eq!([0.0, 0.75, 1.0].map(longitude_of), [-180.0, 90.0, 180.0]);
/// ```
pub fn longitude_of(x: f64) -> f64 {
    (x - 0.5) * 360.0
}
