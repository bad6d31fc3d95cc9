//! The children of a cluster, and the zoom at which it expands.

use crate::{
    ids::Cluster,
    search::{walk, End, Query},
    state::Table,
    Answer, Lent, Refusal, State,
};

/// The places of a cluster's children in the table of its id.
pub fn children(state: &State, lent: &Lent, id: u32) -> Answer<u32> {
    Answer::of(|places| {
        state.check_all(lent)?;
        let cluster = state.asked(id)?;
        let table = state.table(lent, cluster.table);
        walk_children(state, &table, &cluster, &mut |place| {
            places.push(place as u32);
            Ok(())
        })?;
        match places.is_empty() {
            true => Err(Refusal::NoCluster),
            false => Ok(()),
        }
    })
}

/// Walks over the children as the search finds them: `within` at the origin, the entries whose parent is the
/// id.
pub(crate) fn walk_children(
    state: &State,
    table: &Table,
    cluster: &Cluster,
    child: &mut dyn FnMut(usize) -> Result<(), End>,
) -> Result<(), Refusal> {
    let Cluster { id, origin, table: zoom } = *cluster;
    let power = (1_u64 << (zoom - 1)) as f64;
    let radius = state.options.radius / (state.options.extent * power);
    let query = Query::Within([table.columns.x[origin], table.columns.y[origin], radius]);
    walk(&table.index, &query, &mut |place| match table.columns.parent[place] == id {
        true => child(place),
        false => Ok(()),
    })
}

/// The expansion zoom of a cluster.
///
/// From table - 1 on, each search for children adds 1, to max_zoom + 1 at the most; another follows where it found
/// a single cluster.
pub fn expansion_zoom(state: &State, lent: &Lent, id: u32) -> Result<u64, Refusal> {
    state.check_all(lent)?;
    let mut cluster = state.asked(id)?;
    let mut zoom = cluster.table - 1;
    let mut without_children = Refusal::NoCluster;
    while zoom < state.finest() {
        let table = state.table(lent, cluster.table);
        let mut children = Vec::new();
        walk_children(state, &table, &cluster, &mut |place| {
            children.push(place);
            Ok(())
        })?;
        if children.is_empty() {
            return Err(without_children);
        }
        zoom += 1;
        let sole_cluster = children.len() == 1 && table.columns.num[children[0]] > 1;
        if !sole_cluster || zoom == state.finest() {
            break;
        }
        cluster = state.entered(&cluster, table.columns.id[children[0]])?;
        without_children = Refusal::Spoiled;
    }
    Ok(zoom as u64)
}
