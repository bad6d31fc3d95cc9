//! The options of a build.

use crate::lent;

/// The options of a build, with SCOPE's bounds. A build whose option is out of them is refused 1.
///
/// SCOPE presets nothing. This crate is a caller of the proved library, and [`Options::default`] takes what supercluster-rs
/// takes where nothing is said.
///
/// ```
/// use reachvolem::{CoordinateSystem, Options};
///
/// let o = Options::default();
/// assert_eq!((o.min_zoom, o.max_zoom, o.min_points, o.node_size), (0, 16, 2, 64));
/// assert_eq!((o.radius, o.extent), (40.0, 512.0));
/// assert_eq!(o.coordinate_system, CoordinateSystem::LatLng);
/// assert!(!o.longitude_strips_only);
/// ```
#[derive(Clone, Copy, Debug, PartialEq)]
pub struct Options {
    /// The smallest zoom that has a table; at most `max_zoom`. By default 0.
    pub min_zoom: u8,
    /// The largest zoom that clusters; at most 30. The lamps themselves are the table of `max_zoom + 1`. By default 16.
    pub max_zoom: u8,
    /// How many lamps a cluster has at least. By default 2.
    pub min_points: u8,
    /// The radius of a cluster, in the units of `extent`: 0 to 65,536. By default 40.
    pub radius: f64,
    /// The side of a tile: 1 to 65,536. By default 512.
    pub extent: f64,
    /// How many slots of an index are searched one by one: 1 to 65,535. It changes the order of answers alone. By default 64.
    pub node_size: usize,
    /// What the coordinates of the lamps are. By default longitudes, with y projected already.
    pub coordinate_system: CoordinateSystem,
    /// Whether a tile's edge strips run for longitudes only. By default off, as in the original, which has strips everywhere.
    pub longitude_strips_only: bool,
}

impl Default for Options {
    fn default() -> Options {
        Options {
            min_zoom: 0,
            max_zoom: 16,
            min_points: 2,
            radius: 40.0,
            extent: 512.0,
            node_size: 64,
            coordinate_system: CoordinateSystem::LatLng,
            longitude_strips_only: false,
        }
    }
}

impl Options {
    /// The zoom whose table is asked where this zoom is given: at least `min_zoom`, at most `max_zoom + 1`.
    ///
    /// ```
    /// # use reachvolem::Options;
    /// let o = Options { min_zoom: 3, ..Options::default() };
    /// assert_eq!([0, 9, 40].map(|zoom| o.zoom_used(zoom)), [3, 9, 17]);
    /// ```
    pub fn zoom_used(&self, zoom: u8) -> u8 {
        lent::zoom_used(self, zoom)
    }
}

/// What the coordinates of the lamps are.
#[derive(Clone, Copy, Debug, PartialEq)]
pub enum CoordinateSystem {
    /// x is a longitude in degrees, -180 to 180. y is from 0 (north) to 1 (south), projected already:
    /// [`mercator::y_of`](crate::mercator::y_of) makes it of a latitude.
    LatLng,
    /// x and y are places on a plan.
    Cartesian {
        /// What is brought to 0 and what to 1.
        range: DataRange,
    },
}

/// The range of the coordinates on a plan, which is brought to 0 to 1: (v - offset) / scale.
///
/// ```
/// use reachvolem::DataRange;
///
/// let plan = DataRange { max_x: 400.0, max_y: 250.0, ..DataRange::default() };
/// assert_eq!(plan.normalize(100.0), 0.25);
/// assert_eq!(plan.denormalize(0.25), 100.0);
/// ```
#[derive(Clone, Copy, Debug, PartialEq)]
pub struct DataRange {
    /// The least x. By default 0.
    pub min_x: f64,
    /// The least y. By default 0.
    pub min_y: f64,
    /// The greatest x. By default 1.
    pub max_x: f64,
    /// The greatest y. By default 1.
    pub max_y: f64,
    /// What is brought to 0, on both axes; where none is given, the lesser of the minima.
    pub offset: Option<f64>,
    /// How long the way from 0 to 1 is, on both axes; where none is given, the greater maximum less the offset.
    pub scale: Option<f64>,
}

impl Default for DataRange {
    fn default() -> DataRange {
        DataRange { min_x: 0.0, min_y: 0.0, max_x: 1.0, max_y: 1.0, offset: None, scale: None }
    }
}

impl DataRange {
    /// A coordinate of the plan as the tables hold it: (v - offset) / scale.
    pub fn normalize(&self, v: f64) -> f64 {
        lent::normalize(self, v)
    }

    /// A coordinate of a table as the plan has it: v * scale + offset.
    pub fn denormalize(&self, v: f64) -> f64 {
        lent::denormalize(self, v)
    }
}
