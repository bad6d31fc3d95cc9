//! The build of the tables, in lent columns.

use super::{calls::replied, Reply, ZOOMS};
use crate::Options;

/// The lamps that a build is given: their coordinates and their energies.
#[derive(Clone, Copy, Debug)]
pub struct Given<'a> {
    /// x of each, or its longitude.
    pub xs: &'a [f64],
    /// y of each.
    pub ys: &'a [f64],
    /// Its watt-hours, at most 2^40.
    pub energies: &'a [u64],
}

/// Columns as a build is lent them: [`entries_needed`] entries each, and twice as many of `coords`. What they hold before
/// does not matter, and behind what is written it stays.
#[derive(Debug)]
pub struct Written<'a> {
    /// x of each entry.
    pub x: &'a mut [f64],
    /// y of each entry.
    pub y: &'a mut [f64],
    /// The last zoom that marked it.
    pub seen: &'a mut [u8],
    /// Its id.
    pub id: &'a mut [u32],
    /// The id of the cluster that absorbed it.
    pub parent: &'a mut [u32],
    /// How many lamps it has.
    pub num: &'a mut [u32],
    /// Their watt-hours.
    pub energy: &'a mut [u64],
    /// The place that each slot of an index names.
    pub ids: &'a mut [u32],
    /// The coordinates of each slot, x and y.
    pub coords: &'a mut [f64],
    /// Working room.
    pub near: &'a mut [u32],
    /// The place of each lamp's owner: N of them for each table, the finest first.
    pub owners: &'a mut [u32],
}

/// How many entries SCOPE asks of each column for a build of so many lamps: (max_zoom - min_zoom + 2) * N.
pub fn entries_needed(options: &Options, count: usize) -> usize {
    let tables = usize::from(options.max_zoom.saturating_sub(options.min_zoom)) + 2;
    count.saturating_mul(tables)
}

/// Builds the tables of these lamps in the columns, and leaves where each table starts and how long it is, by zoom. A refusal
/// writes nothing.
pub fn load(
    options: &Options,
    given: &Given,
    columns: Written,
    starts: &mut [u32; ZOOMS],
    lens: &mut [u32; ZOOMS],
) -> Reply {
    let Given { xs, ys, energies } = *given;
    let Written { x, y, seen, id, parent, num, energy, ids, coords, near, owners } = columns;
    macro_rules! lend {
        ([$($read:ident),*] [$($written:ident),*]) => {
            replied!(
                options,
                supercluster_load(
                    $($read.as_ptr(), $read.len(),)*
                    $($written.as_mut_ptr(), $written.len(),)*
                    starts,
                    lens,
                )
            )
        };
    }
    lend!([xs, ys, energies] [x, y, seen, id, parent, num, energy, ids, coords, near, owners])
}
