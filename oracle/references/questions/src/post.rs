//! A reading posted to a build (#110): one lamp's energy replaced in all tables, without a new build.

use crate::{Refusal, State};
use options::MOST_ENERGY;

/// Replaces a lamp's energy by a figure: its own in the finest table, and that of its owner, by the column that keeps them, in each
/// other table. The state is refused 11 as where all columns are lent, of which the energies are the only one; so is a column of
/// owners without a place for each lamp and table. Then a lamp that is not there is refused 16, a figure above the bound 15, and
/// what does not fit together 11: in the finest table another owner than the lamp itself, a place that its table does not have,
/// an energy that is less than the lamp's so far, or that would not be a number of 64 bits. A refusal changes nothing.
pub fn post(
    state: &State,
    energy: &mut [u64],
    owners: &[u32],
    lamp: u32,
    figure: u64,
) -> Result<(), Refusal> {
    state.check(energy.len())?;
    if owners.len() < state.options.tables() * state.count as usize {
        return Err(Refusal::Spoiled);
    }
    if lamp >= state.count {
        return Err(Refusal::Lamp);
    }
    if figure > MOST_ENERGY {
        return Err(Refusal::Energy);
    }
    let changes = changes(state, energy, owners, lamp, figure).ok_or(Refusal::Spoiled)?;
    changes.into_iter().for_each(|(at, sum)| energy[at] = sum);
    Ok(())
}

/// Where in the column of the energies something else is to stand, and what: one position in each table. None where an owner or
/// its energy does not fit.
fn changes(
    state: &State,
    energy: &[u64],
    owners: &[u32],
    lamp: u32,
    figure: u64,
) -> Option<Vec<(usize, u64)>> {
    let own = state.positions(state.finest()).nth(lamp as usize)?;
    let zooms = (state.coarsest()..=state.finest()).rev();
    let mut changes = Vec::new();
    for (zoom, part) in zooms.zip(owners.chunks_exact(state.count as usize)) {
        let place = part[lamp as usize];
        if zoom == state.finest() && place != lamp {
            return None;
        }
        let at = state.positions(zoom).nth(place as usize)?;
        let others = energy[at].checked_sub(energy[own])?;
        changes.push((at, others.checked_add(figure)?));
    }
    Some(changes)
}
