//! The options of a build of the tables, as plain values: for the Rust and for the port.

mod bounds;
pub mod corners;

pub use bounds::{MOST_ENERGY, MOST_POINTS, ZOOMS};

/// The four numbers of a Cartesian range, and what is given of offset and scale.
#[derive(Clone, Copy, Debug)]
pub struct Range {
    pub min_x: f64,
    pub min_y: f64,
    pub max_x: f64,
    pub max_y: f64,
    pub offset: Option<f64>,
    pub scale: Option<f64>,
}

/// The range of the table lister: offset 0 and scale 1.
pub const UNIT: Range =
    Range { min_x: 0.0, min_y: 0.0, max_x: 1.0, max_y: 1.0, offset: Some(0.0), scale: Some(1.0) };

impl Range {
    /// The offset: as given, otherwise the smaller minimum.
    pub fn offset(&self) -> f64 {
        self.offset.unwrap_or(self.min_x.min(self.min_y))
    }

    /// The scale: as given, otherwise the larger maximum less the offset.
    pub fn scale(&self) -> f64 {
        self.scale.unwrap_or(self.max_x.max(self.max_y) - self.offset())
    }

    /// A coordinate in table units.
    pub fn normalize(&self, v: f64) -> f64 {
        (v - self.offset()) / self.scale()
    }
}

/// The coordinate system of a build.
#[derive(Clone, Copy, Debug)]
pub enum Plane {
    /// Longitude and latitude; the port is given y in the place of the latitude.
    Globe,
    /// Cartesian coordinates in a range.
    Cartesian(Range),
}

/// The options of a build.
#[derive(Clone, Copy, Debug)]
pub struct Options {
    pub min_zoom: u8,
    pub max_zoom: u8,
    pub min_points: u8,
    pub radius: f64,
    pub extent: f64,
    pub node_size: usize,
    pub plane: Plane,
    /// Whether a tile's edge strips run for longitude only.
    pub longitude_strips_only: bool,
}

impl Options {
    /// How many tables a build has.
    pub fn tables(&self) -> usize {
        usize::from(self.max_zoom.saturating_sub(self.min_zoom)) + 2
    }
}

/// The options of SCOPE's worked build.
pub const WORKED: Options = Options { max_zoom: 1, radius: 64.0, ..USUAL };

/// What the Rust takes where nothing is said, but for the coordinate system; its strips run everywhere.
pub const USUAL: Options = Options {
    min_zoom: 0,
    max_zoom: 16,
    min_points: 2,
    radius: 40.0,
    extent: 512.0,
    node_size: 64,
    plane: Plane::Cartesian(UNIT),
    longitude_strips_only: false,
};
