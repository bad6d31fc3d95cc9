//! What is asked in the comparison of the questions: builds, the questions to each, and tables that no build made.
//!
//! A build is asked 32 boxes, 32 rings and 32 tiles of eight kinds each, with their tallies; all tiles of the zooms
//! 0 to 3 where it has at most 8 points, and to 4 for 2; the children, the expansion zoom and some leaves of every
//! cluster; the leaves of five clusters at 7 limits and 7 offsets each; and ids that are none. A large build is
//! asked ten times as many boxes, rings and tiles, and for a thousand of its clusters. Half of all builds by chance
//! have strips for longitude only.
//!
//! On the globe the Rust takes latitudes and makes y of them by a private function. So the corners of boxes are
//! taken from latitudes of which its y is known, because they were loaded as points and stand in a finest table: the
//! Rust is asked with the latitude, the reference and the port with that y.

mod around;
mod boxes;
mod build;
mod clusters;
mod edges;
mod large;
mod latitudes;
mod longer;
mod rings;
mod rooms;
pub mod spoiled;
mod tiles;

pub use around::{all_boxes, few, many};
pub use boxes::ODD_LONGITUDES;
pub use build::{each, each_count, Build, Sizes};
pub use longer::lengthen;
pub use rooms::{rooms, Rooms};

use questions::{Lent, State};
use splitmix::Splitmix;

/// How much is asked.
#[derive(Clone, Copy, Debug, PartialEq, Eq)]
pub enum Form {
    Short,
    Full,
}

impl Form {
    /// Of what the short form has and what the full one has, this form's.
    pub fn of<T>(self, [short, full]: [T; 2]) -> T {
        match self {
            Form::Short => short,
            Form::Full => full,
        }
    }
}

/// What questions are put to: a state and columns, and coordinates of a caller to lay boxes by, y in [0,1] for
/// longitude.
#[derive(Clone, Copy)]
pub struct Scene<'a> {
    pub state: &'a State,
    pub lent: Lent<'a>,
    pub xs: &'a [f64],
    pub ys: &'a [f64],
}

impl Scene<'_> {
    /// A zoom: a built one, one beside them, one far out.
    fn zoom(&self, source: &mut Splitmix) -> u8 {
        let [least, most] = [self.state.options.min_zoom, self.state.options.max_zoom];
        match source.below(8) {
            0 => source.pick(&[0, 31, 32, 255, least.wrapping_sub(1), most.wrapping_add(2)]),
            _ => {
                let tables = u64::from(most.saturating_sub(least)) + 2;
                least.wrapping_add(source.below(tables) as u8)
            }
        }
    }

    /// The positions of the table of a zoom, as far as the columns hold it.
    fn positions(&self, zoom: usize) -> std::ops::Range<usize> {
        let held = self.lent.x.len().min(self.lent.y.len());
        let zoom = zoom % questions::ZOOMS;
        let start = (self.state.starts[zoom] as usize).min(held);
        start..start.saturating_add(self.state.lens[zoom] as usize).min(held)
    }

    /// The coordinates of an entry in the table of the zoom used; the middle where there is none.
    fn spot(&self, zoom: u8, source: &mut Splitmix) -> [f64; 2] {
        let at = self.positions(self.state.zoom_used(zoom));
        match at.is_empty() {
            true => [0.5, 0.5],
            false => {
                let at = at.start + source.below(at.len() as u64) as usize;
                [self.lent.x[at], self.lent.y[at]]
            }
        }
    }
}
