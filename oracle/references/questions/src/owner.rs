//! The owner of a lamp (#109): how it is climbed to in the tables, and what is answered from the column that keeps it.

use crate::{Lent, Refusal, State};
use columns::NO_PARENT;
use std::collections::HashMap;

/// The place of each lamp's owner in each table, climbed to from the lamp: N for each table, the finest first. There it is the lamp
/// itself; in each next table the entry whose id is the parent of the owner before, or that owner's own id where it has no parent.
/// None where a table has no such entry, or more than one.
pub fn climbed(state: &State, lent: &Lent) -> Option<Vec<u32>> {
    let mut owners: Vec<usize> = (0..state.count as usize).collect();
    let mut column = words(&owners);
    let mut before = state.positions(state.finest());
    for zoom in (state.coarsest()..state.finest()).rev() {
        let table = state.positions(zoom);
        let mut places = HashMap::new();
        for (place, id) in lent.id[table.clone()].iter().enumerate() {
            if places.insert(*id, place).is_some() {
                return None;
            }
        }
        for owner in &mut owners {
            let at = before.start + *owner;
            let id = match lent.parent[at] {
                NO_PARENT => lent.id[at],
                parent => parent,
            };
            *owner = *places.get(&id)?;
        }
        column.extend(words(&owners));
        before = table;
    }
    Some(column)
}

/// Places as a column holds them.
fn words(places: &[usize]) -> Vec<u32> {
    places.iter().map(|place| *place as u32).collect()
}

/// The place of a lamp's owner in the table of the zoom used, by the column that keeps them. The state is refused 11 as where all
/// columns are lent, of which this is the only one; so is a column without a place for each lamp and table. Then a lamp that is
/// not there is refused 16, and a place that its table does not have 11.
pub fn owner(state: &State, owners: &[u32], lamp: u32, zoom: u8) -> Result<u64, Refusal> {
    state.check(owners.len())?;
    let parts: Vec<&[u32]> = owners.chunks_exact(state.count as usize).collect();
    let tables: Vec<usize> = (state.coarsest()..=state.finest()).rev().collect();
    if parts.len() < tables.len() {
        return Err(Refusal::Spoiled);
    }
    if lamp >= state.count {
        return Err(Refusal::Lamp);
    }
    let used = state.zoom_used(zoom);
    let part = tables.iter().position(|table| *table == used).expect("a table of the zoom used");
    let place = parts[part][lamp as usize];
    match place < state.lens[used] {
        true => Ok(u64::from(place)),
        false => Err(Refusal::Spoiled),
    }
}
