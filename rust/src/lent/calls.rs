//! How the C names that take the options of a build are called: the options as words, then the name's own words and
//! columns, a column as its pointer and its length, then the place for the carried number.

use crate::{CoordinateSystem, DataRange};

/// What stands for a number that is not given, or not part of the coordinate system: none may look at it.
pub(super) const NOT_GIVEN: f64 = f64::NAN;

/// The range of a coordinate system that has none.
const NO_RANGE: DataRange = DataRange {
    min_x: NOT_GIVEN,
    min_y: NOT_GIVEN,
    max_x: NOT_GIVEN,
    max_y: NOT_GIVEN,
    offset: None,
    scale: None,
};

/// Whether a coordinate system is Cartesian, and its range.
pub(super) fn parts(system: &CoordinateSystem) -> (bool, DataRange) {
    match system {
        CoordinateSystem::LatLng => (false, NO_RANGE),
        CoordinateSystem::Cartesian { range } => (true, *range),
    }
}

/// Calls a C name with these options and words. Each pointer among the words has to be that of a slice beside its length, of an
/// array or of a number, borrowed for the call, mutably where it is written to.
macro_rules! call {
    ($options:expr, $name:ident($($word:expr),* $(,)?)) => {{
        let options: &$crate::Options = $options;
        let (cartesian, range) = $crate::lent::calls::parts(&options.coordinate_system);
        // SAFETY: the library asks nothing of its caller but what the types say: a pointer to as many numbers as the length
        // says, and nothing written that overlaps. Both hold of what is borrowed, and each pointer here is that of something
        // borrowed for the call.
        unsafe {
            $crate::names::$name(
                options.min_zoom,
                options.max_zoom,
                options.min_points,
                options.radius,
                options.extent,
                options.node_size,
                cartesian,
                range.min_x,
                range.min_y,
                range.max_x,
                range.max_y,
                range.offset.is_some(),
                range.offset.unwrap_or($crate::lent::calls::NOT_GIVEN),
                range.scale.is_some(),
                range.scale.unwrap_or($crate::lent::calls::NOT_GIVEN),
                options.longitude_strips_only,
                $($word,)*
            )
        }
    }};
}

/// The reply of a C name that is called so, and with the place for the carried number behind the words.
macro_rules! replied {
    ($options:expr, $name:ident($($word:expr),* $(,)?)) => {
        $crate::lent::reply(|carried| {
            $crate::lent::calls::call!($options, $name($($word,)* carried))
        })
    };
}

pub(super) use {call, replied};
