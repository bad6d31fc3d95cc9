//! The zoom used, and between a plan's coordinates and the tables'.

use super::calls::{call, NOT_GIVEN};
use crate::{names, DataRange, Options};

/// The zoom whose table is asked where this zoom is given: at least min_zoom, at most max_zoom + 1.
pub fn zoom_used(options: &Options, zoom: u8) -> u8 {
    call!(options, supercluster_zoom_used(zoom))
}

/// Calls a C name with the numbers of a range and one more.
macro_rules! of_range {
    ($name:ident, $range:ident, $v:ident) => {{
        let DataRange { min_x, min_y, max_x, max_y, offset, scale } = *$range;
        // SAFETY: the library takes all numbers, and no pointer is passed.
        unsafe {
            names::$name(
                min_x,
                min_y,
                max_x,
                max_y,
                offset.is_some(),
                offset.unwrap_or(NOT_GIVEN),
                scale.is_some(),
                scale.unwrap_or(NOT_GIVEN),
                $v,
            )
        }
    }};
}

/// A coordinate of a plan as the tables hold it: (v - offset) / scale.
pub fn normalize(range: &DataRange, v: f64) -> f64 {
    of_range!(supercluster_normalize, range, v)
}

/// A coordinate of a table as the plan has it: v * scale + offset.
pub fn denormalize(range: &DataRange, v: f64) -> f64 {
    of_range!(supercluster_denormalize, range, v)
}
