//! Columns of owners beside states that no build made: what is climbed to in the tables, or places by chance; with places that their
//! table does not have, and of other lengths.

use super::entries::some;
use crate::Build;
use questions::{climbed, Question, Refusal, State, ZOOMS};
use splitmix::Splitmix;

/// The most places of a column: one of a state that asks for more is short.
const MOST: u64 = 1 << 22;

/// A column for the state of a build, and what it is.
pub fn owners(build: &Build, source: &mut Splitmix) -> (&'static str, Vec<u32>) {
    let climbed = climbed_to(build).filter(|_| source.below(2) == 0);
    let mut column = climbed.unwrap_or_else(|| by_chance(&build.state, source));
    let what = match source.below(8) {
        0..=2 => "owners",
        3 | 4 => past_the_tables(&build.state, &mut column, source),
        5 => {
            let length = column.len().saturating_sub(1 + build.state.count.min(64) as usize);
            column.truncate(length + source.below(build.state.count.clamp(1, 64).into()) as usize);
            "owners, a table short or less"
        }
        6 => {
            column.pop();
            "owners, one short"
        }
        _ => {
            column.truncate(source.below(column.len() as u64 + 1) as usize);
            "owners, short"
        }
    };
    // Behind them may stand something that belongs to no table.
    if what == "owners" {
        (0..source.below(4)).for_each(|_| column.push(source.bits() as u32));
    }
    (what, column)
}

/// What is climbed to, where the state and all columns are in order and every climb ends: then an id below N is refused by 6.
fn climbed_to(build: &Build) -> Option<Vec<u32>> {
    let lent = build.columns.lent();
    let outcome = Question::Children { id: 0 }.answered(&build.state, &lent);
    (outcome.refusal() == Some(Refusal::NoCluster)).then(|| climbed(&build.state, &lent)).flatten()
}

/// The lengths of the tables of a state, the finest first, as far as there are such zooms.
fn lengths(state: &State) -> Vec<u32> {
    let zooms = (state.coarsest()..=state.finest()).rev();
    zooms.map(|zoom| state.lens.get(zoom % ZOOMS).copied().unwrap_or(0)).collect()
}

/// Places of the tables, any.
fn by_chance(state: &State, source: &mut Splitmix) -> Vec<u32> {
    let lengths = lengths(state);
    let count = match u64::from(state.count) * lengths.len() as u64 {
        0..=MOST => state.count,
        _ => source.below(64) as u32,
    };
    let one = |length: u32, source: &mut Splitmix| source.below(u64::from(length.max(1))) as u32;
    let part = |length: u32| (0..count).map(|_| one(length, source)).collect::<Vec<u32>>();
    lengths.into_iter().flat_map(part).collect()
}

/// Some places that no table has, or only a longer one: the length of a table or more, or anything.
fn past_the_tables(state: &State, column: &mut [u32], source: &mut Splitmix) -> &'static str {
    let lengths = lengths(state);
    some(column, source, |place, source| match source.below(6) {
        0 => u32::MAX,
        1 => source.bits() as u32,
        2 => place.wrapping_add(1),
        _ if lengths.is_empty() => 1 << 31,
        _ => source.pick(&lengths).wrapping_add(source.below(2) as u32),
    });
    "owners past their tables"
}
