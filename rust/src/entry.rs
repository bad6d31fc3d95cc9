//! An entry of a table.

use crate::lent::{self, Columns, PARENT_UNSET, SEEN_UNSET};

/// An entry of a table: a lamp or a cluster.
#[derive(Clone, Copy, Debug, PartialEq)]
pub struct Entry {
    /// x of its centre, from 0 to 1.
    pub x: f64,
    /// y of its centre, from 0 to 1.
    pub y: f64,
    /// The last zoom that marked it, if one did.
    pub seen: Option<u8>,
    /// A lamp's number from 0, or a cluster's id.
    pub id: u32,
    /// The id of the cluster that took it in, if one did.
    pub parent: Option<u32>,
    /// How many lamps it has.
    pub num: u32,
    /// The watt-hours of its lamps.
    pub energy: u64,
}

impl From<lent::Entry> for Entry {
    fn from(lent::Entry { x, y, seen, id, parent, num, energy }: lent::Entry) -> Entry {
        let seen = Some(seen).filter(|seen| *seen != SEEN_UNSET);
        let parent = Some(parent).filter(|parent| *parent != PARENT_UNSET);
        Entry { x, y, seen, id, parent, num, energy }
    }
}

impl Entry {
    /// Whether it is a cluster: it has more than one lamp.
    pub fn is_cluster(&self) -> bool {
        self.num > 1
    }

    /// The entry at a position of the columns.
    pub(crate) fn at(columns: &Columns, at: usize) -> Entry {
        let Columns { x, y, seen, id, parent, num, energy, .. } = columns;
        Entry::from(lent::Entry {
            x: x[at],
            y: y[at],
            seen: seen[at],
            id: id[at],
            parent: parent[at],
            num: num[at],
            energy: energy[at],
        })
    }
}
