//! Refusals, by SCOPE's numbers.

use std::{error::Error, fmt};

/// Why a call is refused. SCOPE's 'Numbered replies' fixes when, and which refusal comes first where several hold.
///
/// ```
/// use reachvolem::{Options, Refused, Supercluster};
///
/// let refused = Supercluster::load(Options::default(), &[0.0, 181.0], &[0.5, 0.5], &[1, 1]).unwrap_err();
/// assert_eq!(refused, Refused::Point { at: 1 });
/// assert_eq!((refused.number(), refused.carried()), (3, 1));
/// assert_eq!(refused.to_string(), "refused 3: point 1 is not within 0 to 1 once it is converted");
/// ```
#[derive(Clone, Copy, Debug, PartialEq, Eq)]
pub enum Refused {
    /// 1: an option is out of its bounds.
    Options,
    /// 2: there are no lamps, or above 1,048,576, or not as many ys or energies as xs.
    Count,
    /// 3: a lamp's x or y is not within 0 to 1 once it is converted.
    Point {
        /// The first such lamp, counted from 0.
        at: usize,
    },
    /// 4: a lent column is too short.
    Tables,
    /// 5: the id's table is below `min_zoom` or above `max_zoom + 1`.
    NoTree,
    /// 6: the id is no cluster's; of [`entry`](crate::Tables::entry), the table has no such place.
    NoCluster,
    /// 7: there is no such tile.
    Tile,
    /// 8: the tile has no items.
    EmptyTile,
    /// 9: a number of a box, a ring or a search is not finite, a radius is below 0, or with longitudes a box's y is not
    /// within 0 to 1.
    Box,
    /// 10: there are more items than a lent column takes. Calls that own their columns never give it: they ask again with room.
    NoRoom {
        /// How many items there are.
        needed: usize,
    },
    /// 11: the lent tables do not fit together. No build of [`Supercluster::load`](crate::Supercluster::load) is refused so.
    Spoiled,
    /// 15: a lamp brings more than 2^40 watt-hours.
    Energy {
        /// The first such lamp, counted from 0; of [`post`](crate::Supercluster::post) the one that it is given.
        at: usize,
    },
    /// 16: the build has no lamp of this number: it is not below their count.
    Lamp,
}

impl Refused {
    /// The refusal of a reply: its number and what it carries. None for 0, which refuses nothing.
    ///
    /// # Panics
    ///
    /// For a number that no C name answers.
    pub(crate) fn of(number: u32, carried: usize) -> Option<Refused> {
        Some(match number {
            0 => return None,
            1 => Refused::Options,
            2 => Refused::Count,
            3 => Refused::Point { at: carried },
            4 => Refused::Tables,
            5 => Refused::NoTree,
            6 => Refused::NoCluster,
            7 => Refused::Tile,
            8 => Refused::EmptyTile,
            9 => Refused::Box,
            10 => Refused::NoRoom { needed: carried },
            11 => Refused::Spoiled,
            15 => Refused::Energy { at: carried },
            16 => Refused::Lamp,
            _ => unreachable!("no C name answers {number}"),
        })
    }

    /// SCOPE's number of it.
    pub fn number(&self) -> u32 {
        match self {
            Refused::Options => 1,
            Refused::Count => 2,
            Refused::Point { .. } => 3,
            Refused::Tables => 4,
            Refused::NoTree => 5,
            Refused::NoCluster => 6,
            Refused::Tile => 7,
            Refused::EmptyTile => 8,
            Refused::Box => 9,
            Refused::NoRoom { .. } => 10,
            Refused::Spoiled => 11,
            Refused::Energy { .. } => 15,
            Refused::Lamp => 16,
        }
    }

    /// What it carries: the first such lamp or the one posted to, how many items there are, or 0.
    pub fn carried(&self) -> usize {
        match *self {
            Refused::Point { at } | Refused::Energy { at } => at,
            Refused::NoRoom { needed } => needed,
            _ => 0,
        }
    }
}

impl fmt::Display for Refused {
    fn fmt(&self, f: &mut fmt::Formatter<'_>) -> fmt::Result {
        write!(f, "refused {}: ", self.number())?;
        match self {
            Refused::Options => f.write_str("an option is out of its bounds"),
            Refused::Count => {
                f.write_str("there must be 1 to 1,048,576 lamps, and as many ys and energies as xs")
            }
            Refused::Point { at } => {
                write!(f, "point {at} is not within 0 to 1 once it is converted")
            }
            Refused::Tables => f.write_str("a lent column is too short"),
            Refused::NoTree => f.write_str("the id leads to a table that was not built"),
            Refused::NoCluster => {
                f.write_str("the id is no cluster's, or the table has no such place")
            }
            Refused::Tile => f.write_str("there is no such tile"),
            Refused::EmptyTile => f.write_str("the tile has no items"),
            Refused::Box => {
                f.write_str("a number of the box or search is not finite or out of its bounds")
            }
            Refused::NoRoom { needed } => {
                write!(f, "there are {needed} items, more than a lent column takes")
            }
            Refused::Spoiled => f.write_str("the lent tables do not fit together"),
            Refused::Energy { at } => write!(f, "point {at} brings more than 2^40 watt-hours"),
            Refused::Lamp => f.write_str("the build has no lamp of this number"),
        }
    }
}

impl Error for Refused {}
