//! The lamps of a cluster.

use crate::{
    children::{children, walk_children},
    ids::Cluster,
    search::End,
    state::Table,
    Answer, Lent, Refusal, State,
};

/// The ids of a cluster's lamps: as many as the limit, after as many as the offset. Limit 0 lists nothing: it is
/// refused where the whole search for the children is, and enters none of them.
pub fn leaves(state: &State, lent: &Lent, id: u32, limit: u32, offset: u32) -> Answer<u32> {
    if limit == 0 {
        return Answer { items: Vec::new(), refusal: children(state, lent, id).refusal };
    }
    Answer::of(|lamps| {
        state.check_all(lent)?;
        let cluster = state.asked(id)?;
        let [limit, offset] = [limit, offset].map(u64::from);
        let mut walk = Walk { state, lent, limit, offset, skipped: 0, lamps };
        match walk.level(&cluster)? {
            0 => Err(Refusal::NoCluster),
            _ => Ok(()),
        }
    })
}

/// A leaf walk on its way.
struct Walk<'a> {
    state: &'a State,
    lent: &'a Lent<'a>,
    limit: u64,
    offset: u64,
    skipped: u64,
    lamps: &'a mut Vec<u32>,
}

impl Walk<'_> {
    /// The children of one cluster, until the number listed equals the limit after one of them; how many
    /// were come to.
    fn level(&mut self, cluster: &Cluster) -> Result<usize, Refusal> {
        let table = self.state.table(self.lent, cluster.table);
        let mut children = 0;
        walk_children(self.state, &table, cluster, &mut |place| {
            children += 1;
            self.child(cluster, &table, place)?;
            match self.lamps.len() as u64 == self.limit {
                true => Err(End::Stopped),
                false => Ok(()),
            }
        })?;
        Ok(children)
    }

    /// One child: a cluster is skipped whole or entered, a lamp skipped or listed.
    fn child(&mut self, from: &Cluster, table: &Table, place: usize) -> Result<(), Refusal> {
        let num = u64::from(table.columns.num[place]);
        if num > 1 {
            if self.skipped + num <= self.offset {
                self.skipped += num;
                return Ok(());
            }
            let cluster = self.state.entered(from, table.columns.id[place])?;
            return match self.level(&cluster)? {
                0 => Err(Refusal::Spoiled),
                _ => Ok(()),
            };
        }
        if self.skipped < self.offset {
            self.skipped += 1;
            return Ok(());
        }
        if self.lamps.len() == self.state.count as usize {
            return Err(Refusal::Spoiled);
        }
        self.lamps.push(table.columns.id[place]);
        Ok(())
    }
}
