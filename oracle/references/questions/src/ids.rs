//! Ids of clusters: origin and table.

use crate::{Refusal, State};

/// A cluster: its id, the place of its origin, and the zoom of the table that holds its children.
#[derive(Clone, Copy, Debug)]
pub(crate) struct Cluster {
    pub id: u32,
    pub origin: usize,
    pub table: usize,
}

/// Origin and table of an id, where it is not below N.
pub fn decoded(count: u32, id: u32) -> Option<(usize, usize)> {
    let rest = id.checked_sub(count)?;
    Some(((rest / 32) as usize, (rest % 32) as usize))
}

/// The id of a cluster with this origin and table.
pub fn encoded(count: u32, origin: usize, table: usize) -> u32 {
    origin as u32 * 32 + table as u32 + count
}

impl State {
    /// The cluster that is asked for: 6 for an id below N, 5 where there is no such table, 6 where it is
    /// that of min_zoom or the origin is past it.
    pub(crate) fn asked(&self, id: u32) -> Result<Cluster, Refusal> {
        let (origin, table) = decoded(self.count, id).ok_or(Refusal::NoCluster)?;
        if !(self.coarsest()..=self.finest()).contains(&table) {
            return Err(Refusal::NoTree);
        }
        if table == self.coarsest() || origin >= self.lens[table] as usize {
            return Err(Refusal::NoCluster);
        }
        Ok(Cluster { id, origin, table })
    }

    /// The child cluster that a walk goes on into, from a cluster with this table: its own is larger and
    /// built, and the origin is in it.
    pub(crate) fn entered(&self, from: &Cluster, id: u32) -> Result<Cluster, Refusal> {
        let (origin, table) = decoded(self.count, id).ok_or(Refusal::Spoiled)?;
        let built = from.table < table && table <= self.finest();
        if !built || origin >= self.lens[table] as usize {
            return Err(Refusal::Spoiled);
        }
        Ok(Cluster { id, origin, table })
    }
}
