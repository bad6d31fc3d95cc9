//! The questions to a build, over a lent state and lent columns.

use super::{
    calls::{call, replied},
    Reply, UNSET, ZOOMS,
};
use crate::Options;

/// What is known of a build beside its columns.
#[derive(Clone, Copy, Debug, PartialEq)]
pub struct State {
    /// The options of the build.
    pub options: Options,
    /// How many lamps it has.
    pub count: u32,
    /// Where each table starts in the columns, by zoom.
    pub starts: [u32; ZOOMS],
    /// How long each table is, by zoom; 0 where there is none.
    pub lens: [u32; ZOOMS],
}

/// Columns as a question is lent them.
#[derive(Clone, Copy, Debug, Default)]
pub struct Columns<'a> {
    /// x of each entry.
    pub x: &'a [f64],
    /// y of each entry.
    pub y: &'a [f64],
    /// The last zoom that marked it.
    pub seen: &'a [u8],
    /// Its id.
    pub id: &'a [u32],
    /// The id of the cluster that absorbed it.
    pub parent: &'a [u32],
    /// How many lamps it has.
    pub num: &'a [u32],
    /// Their watt-hours.
    pub energy: &'a [u64],
    /// The place that each slot of an index names.
    pub ids: &'a [u32],
    /// The coordinates of each slot, x and y.
    pub coords: &'a [f64],
    /// The place of each lamp's owner: N of them for each table, the finest first. [`Asked::owner`] is lent this column
    /// alone, [`post`](super::post()) beside that of the energies, and no other question is lent it.
    pub owners: &'a [u32],
}

/// A build as a question is lent it: its state, and its columns.
#[derive(Clone, Copy, Debug)]
pub struct Asked<'a> {
    /// The options of the build.
    pub options: Options,
    /// How many lamps it has.
    pub count: u32,
    /// Where each table starts in the columns, by zoom.
    pub starts: &'a [u32; ZOOMS],
    /// How long each table is, by zoom.
    pub lens: &'a [u32; ZOOMS],
    /// The columns.
    pub columns: Columns<'a>,
}

/// The reply of a box within an effort.
#[derive(Clone, Copy, Debug, PartialEq, Eq)]
pub struct EffortReply {
    /// Its number, and how many items there are.
    pub reply: Reply,
    /// How many slots were tested.
    pub tested: usize,
    /// Whether a test was left.
    pub stopped: bool,
}

/// An entry as the columns hold it.
#[derive(Clone, Copy, Debug, Default, PartialEq)]
pub struct Entry {
    /// x of its centre.
    pub x: f64,
    /// y of its centre.
    pub y: f64,
    /// The last zoom that marked it, or [`SEEN_UNSET`](super::SEEN_UNSET).
    pub seen: u8,
    /// Its id.
    pub id: u32,
    /// The id of the cluster that took it in, or [`PARENT_UNSET`](super::PARENT_UNSET).
    pub parent: u32,
    /// How many lamps it has.
    pub num: u32,
    /// Their watt-hours.
    pub energy: u64,
}

/// Asks with the state, these columns and the question's own words, by `call` or by `replied`.
macro_rules! ask {
    ($asked:ident [$($column:ident),*], $name:ident($($word:expr),*)) => {
        ask!($asked [$($column),*], $name($($word),*), by replied)
    };
    ($asked:ident [$($column:ident),*], $name:ident($($word:expr),*), by $way:ident) => {
        $way!(
            &$asked.options,
            $name(
                $asked.count,
                $asked.starts,
                $asked.lens,
                $($asked.columns.$column.as_ptr(), $asked.columns.$column.len(),)*
                $($word),*
            )
        )
    };
}

/// The same with all columns of the tables.
macro_rules! ask_all {
    ($asked:ident, $name:ident($($word:expr),*)) => {
        ask_all!($asked, $name($($word),*), by replied)
    };
    ($asked:ident, $name:ident($($word:expr),*), by $way:ident) => {
        ask!($asked [x, y, seen, id, parent, num, energy, ids, coords], $name($($word),*), by $way)
    };
}

impl<'a> Asked<'a> {
    /// A state and columns, lent.
    pub fn of(state: &'a State, columns: Columns<'a>) -> Asked<'a> {
        let State { options, count, starts, lens } = state;
        Asked { options: *options, count: *count, starts, lens, columns }
    }

    /// The places of the table of the zoom used in the box of these corners: west, least y, east, greatest y.
    pub fn in_box(
        &self,
        zoom: u8,
        [west, least_y, east, greatest_y]: [f64; 4],
        out: &mut [u32],
    ) -> Reply {
        let (start, length) = (out.as_mut_ptr(), out.len());
        ask!(
            self [ids, coords],
            supercluster_box(zoom, west, least_y, east, greatest_y, start, length)
        )
    }

    /// The same within so many tests: what they find, how many were made, and whether one was left.
    pub fn box_effort(
        &self,
        zoom: u8,
        [west, least_y, east, greatest_y]: [f64; 4],
        allowance: usize,
        out: &mut [u32],
    ) -> EffortReply {
        let (start, length) = (out.as_mut_ptr(), out.len());
        // Before the call `stopped` says either, by the allowance, so that it shows where it is not told.
        let (mut tested, mut stopped) = (UNSET, allowance % 2 == 0);
        let reply = ask!(
            self [ids, coords],
            supercluster_box_effort(
                zoom,
                west,
                least_y,
                east,
                greatest_y,
                allowance,
                start,
                length,
                &mut tested,
                &mut stopped
            )
        );
        EffortReply { reply, tested, stopped }
    }

    /// The places of the table of the zoom used in the ring of this centre and radius: x, y, radius, in table units.
    pub fn ring(&self, zoom: u8, [x, y, radius]: [f64; 3], out: &mut [u32]) -> Reply {
        let (start, length) = (out.as_mut_ptr(), out.len());
        ask!(self [ids, coords], supercluster_ring(zoom, x, y, radius, start, length))
    }

    /// The places of a cluster's children, in the table that its id leads to.
    pub fn children(&self, id: u32, out: &mut [u32]) -> Reply {
        let (start, length) = (out.as_mut_ptr(), out.len());
        ask_all!(self, supercluster_children(id, start, length))
    }

    /// The ids of a cluster's lamps: at most `limit` of them, after the first `offset`.
    pub fn leaves(&self, id: u32, limit: u32, offset: u32, out: &mut [u32]) -> Reply {
        let (start, length) = (out.as_mut_ptr(), out.len());
        ask_all!(self, supercluster_leaves(id, limit, offset, start, length))
    }

    /// The zoom at which a cluster falls apart, as the carried number.
    pub fn expansion_zoom(&self, id: u32) -> Reply {
        ask_all!(self, supercluster_expansion_zoom(id))
    }

    /// The items of the tile (z, x, y): their places in the table of the zoom used, and where they lie in the tile.
    pub fn tile(
        &self,
        (z, x, y): (u8, u32, u32),
        places: &mut [u32],
        px: &mut [i64],
        py: &mut [i64],
    ) -> Reply {
        ask_all!(
            self,
            supercluster_tile(
                z,
                x,
                y,
                places.as_mut_ptr(),
                places.len(),
                px.as_mut_ptr(),
                px.len(),
                py.as_mut_ptr(),
                py.len()
            )
        )
    }

    /// How many lamps the entries at home in the tile (z, x, y) have, as the carried number.
    pub fn tally(&self, (z, x, y): (u8, u32, u32)) -> Reply {
        ask_all!(self, supercluster_tally(z, x, y))
    }

    /// The place of a lamp's owner in the table of the zoom used, as the carried number. Refused 11 or 16.
    pub fn owner(&self, lamp: u32, zoom: u8) -> Reply {
        ask!(self[owners], supercluster_owner(lamp, zoom))
    }

    /// The entry at a place of the table of exactly this zoom, in `entry`; a refusal, 11, 5 or 6, leaves that as it was.
    /// Nothing is carried.
    pub fn entry(&self, zoom: u8, place: u32, entry: &mut Entry) -> Reply {
        let number = ask_all!(
            self,
            supercluster_entry(
                zoom,
                place,
                &mut entry.x,
                &mut entry.y,
                &mut entry.seen,
                &mut entry.id,
                &mut entry.parent,
                &mut entry.num,
                &mut entry.energy
            ),
            by call
        );
        Reply { number, carried: 0 }
    }
}
