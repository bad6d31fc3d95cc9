//! The bounds of the options, and of the points, written from the scope's 'Bounds'; that of an energy by #108.

use crate::{Options, Plane, Range};

/// The most points of a build, or of an index.
pub const MOST_POINTS: usize = 1_048_576;

/// How many starts and lengths a state has, by zoom.
pub const ZOOMS: usize = 32;

/// The largest energy of a point.
pub const MOST_ENERGY: u64 = 1_099_511_627_776;

impl Options {
    /// Whether every option is within its bounds.
    pub fn in_bounds(&self) -> bool {
        self.min_zoom <= self.max_zoom
            && self.max_zoom <= 30
            && (1..=65_535).contains(&self.node_size)
            && (0.0..=65_536.0).contains(&self.radius)
            && (1.0..=65_536.0).contains(&self.extent)
            && match &self.plane {
                Plane::Globe => true,
                Plane::Cartesian(range) => range.in_bounds(),
            }
    }
}

impl Range {
    /// Whether minima, maxima, offset and scale are finite, and the scale is above 0.
    fn in_bounds(&self) -> bool {
        let Range { min_x, min_y, max_x, max_y, .. } = *self;
        let offset = self.offset.unwrap_or(if min_y < min_x { min_y } else { min_x });
        let scale = self.scale.unwrap_or(if max_x < max_y { max_y } else { max_x } - offset);
        let all_finite = [min_x, min_y, max_x, max_y, offset, scale].iter().all(|v| v.is_finite());
        all_finite && scale > 0.0
    }
}
