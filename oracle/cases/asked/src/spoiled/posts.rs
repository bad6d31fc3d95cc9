//! Readings posted to states that no build made. The energies of a table are the sums over the lamps of each owner, as far as the state
//! and the column of the owners let them; then something may be changed that the lamp or the figure does not fit with. A test counts
//! that each change alone refuses a reading, or leaves it taken.

use super::{entries::some, owners};
use crate::Build;
use options::MOST_ENERGY;
use questions::{State, ZOOMS};
use splitmix::Splitmix;

/// Columns for a state: the energies and the owners.
pub struct Posts<'a> {
    state: &'a State,
    /// What the owners are.
    owners_are: &'static str,
    energy: Vec<u64>,
    owners: Vec<u32>,
}

/// A lamp and its new figure, and the columns as they are lent.
#[derive(Clone, Debug)]
pub struct Reading {
    /// What the owners are, and what is changed for this reading.
    pub what: [&'static str; 2],
    pub energy: Vec<u64>,
    pub owners: Vec<u32>,
    pub lamp: u32,
    pub figure: u64,
}

/// A change of the columns for a reading.
type Change = fn(&State, &mut Reading, &mut Splitmix);

/// What leaves the columns as they are.
pub const UNCHANGED: &str = "unchanged";

/// The changes, by their names.
const CHANGES: [(&str, Change); 12] = [
    (UNCHANGED, |_, _, _| ()),
    (UNCHANGED, |_, _, _| ()),
    ("an owner past its table", past_its_table),
    ("another lamp in the finest table", another_lamp),
    ("a sum beside the figure so far", beside_the_figure),
    ("a sum near 2^64", near_the_end),
    ("all sums near 2^64", all_near_the_end),
    ("any energies", any_energies),
    ("energies one short", |state, reading, _| cut(&mut reading.energy, end(state), 1)),
    ("energies just long enough", |state, reading, _| cut(&mut reading.energy, end(state), 0)),
    ("owners one short", |state, reading, _| cut(&mut reading.owners, places(state), 1)),
    ("owners just long enough", |state, reading, _| cut(&mut reading.owners, places(state), 0)),
];

/// Columns for the state of a build. In most of them every lamp is its own owner in the finest table.
pub fn posts<'a>(build: &'a Build, source: &mut Splitmix) -> Posts<'a> {
    let state = &build.state;
    let (owners_are, mut owners) = owners(build, source);
    if source.below(8) != 0 {
        owners.iter_mut().zip(0..state.count).for_each(|(place, lamp)| *place = lamp);
    }
    let mut energy = build.columns.energy.clone();
    sum_up(state, &mut energy, &owners, source);
    Posts { state, owners_are, energy, owners }
}

impl Posts<'_> {
    /// A reading, before anything is changed for it and after.
    pub fn reading(&self, source: &mut Splitmix) -> [Reading; 2] {
        let Posts { state, owners_are, energy, owners } = self;
        let (energy, owners) = (energy.clone(), owners.clone());
        let (lamp, figure) = (lamp(state.count, source), figure(source));
        let before = Reading { what: [owners_are, UNCHANGED], energy, owners, lamp, figure };
        let mut after = before.clone();
        let (name, change) = source.pick(&CHANGES);
        after.what[1] = name;
        change(state, &mut after, source);
        [before, after]
    }
}

/// A lamp of a build of so many, or one that it does not have.
fn lamp(count: u32, source: &mut Splitmix) -> u32 {
    match source.below(8) {
        0 => source.pick(&[count, count.wrapping_add(1), count.wrapping_mul(2), u32::MAX]),
        _ => source.below(u64::from(count.max(1))) as u32,
    }
}

/// A figure within its bounds, or one that is too large.
fn figure(source: &mut Splitmix) -> u64 {
    match source.below(8) {
        0 => source.pick(&[MOST_ENERGY + 1, MOST_ENERGY + 2, 2 * MOST_ENERGY, 1 << 63, u64::MAX]),
        1 | 2 => source.pick(&[0, 1, MOST_ENERGY - 1, MOST_ENERGY]),
        _ => source.below(MOST_ENERGY + 1),
    }
}

/// Adds the lamps' figures up, each where its owner stands: all the same ones, or any.
fn sum_up(state: &State, energy: &mut [u64], owners: &[u32], source: &mut Splitmix) {
    let same = source.pick(&[0, MOST_ENERGY]);
    let any = source.below(4) != 0;
    let lamps = owners.len().min(state.count as usize);
    let mut one = |_| if any { source.below(MOST_ENERGY + 1) } else { same };
    let figures: Vec<u64> = (0..lamps).map(&mut one).collect();
    energy.fill(0);
    let parts = owners.chunks(state.count.max(1) as usize);
    for (zoom, part) in (state.coarsest()..=state.finest()).rev().zip(parts) {
        let start = at(&state.starts, zoom);
        for (place, figure) in part.iter().zip(&figures) {
            if let Some(sum) = energy.get_mut(start + *place as usize) {
                *sum = sum.wrapping_add(*figure);
            }
        }
    }
}

/// What a state has for a zoom; 0 where there is no such zoom.
fn at(words: &[u32; ZOOMS], zoom: usize) -> usize {
    words.get(zoom).map_or(0, |word| *word as usize)
}

/// Where the last table ends.
fn end(state: &State) -> usize {
    at(&state.starts, state.coarsest()) + at(&state.lens, state.coarsest())
}

/// How many owners there have to be.
fn places(state: &State) -> usize {
    state.options.tables() * state.count as usize
}

/// Cuts a column off, so many short of a length.
fn cut<T>(column: &mut Vec<T>, length: usize, short: usize) {
    column.truncate(length.saturating_sub(short));
}

/// Where a reading's lamp has its owner in the column of the owners, for a table of the state; and the zoom of the table.
fn spot(state: &State, lamp: u32, source: &mut Splitmix) -> (usize, usize) {
    let part = source.below(state.options.tables() as u64) as usize;
    let zoom = state.finest().saturating_sub(part);
    (part * state.count as usize + lamp as usize, zoom)
}

/// The position of the energy of that owner, if there is one.
fn sum_at(state: &State, reading: &Reading, (at_owner, zoom): (usize, usize)) -> Option<usize> {
    let place = *reading.owners.get(at_owner)? as usize;
    Some(at(&state.starts, zoom) + place).filter(|sum| *sum < reading.energy.len())
}

/// The lamp's energy so far: that of the finest table.
fn so_far(state: &State, reading: &Reading) -> u64 {
    let own = at(&state.starts, state.finest()) + reading.lamp as usize;
    reading.energy.get(own).copied().unwrap_or(0)
}

/// The place of an owner is the length of its table or more.
fn past_its_table(state: &State, reading: &mut Reading, source: &mut Splitmix) {
    let (owner, zoom) = spot(state, reading.lamp, source);
    let length = at(&state.lens, zoom) as u32;
    let more = source.pick(&[0, 0, 1, 31, u32::MAX - length]);
    if let Some(place) = reading.owners.get_mut(owner) {
        *place = length.wrapping_add(more);
    }
}

/// In the finest table the lamp's owner is not the lamp.
fn another_lamp(_: &State, reading: &mut Reading, source: &mut Splitmix) {
    let lamp = reading.lamp;
    let other = source.pick(&[lamp ^ 1, lamp.wrapping_add(1), lamp.wrapping_sub(1), !lamp]);
    if let Some(place) = reading.owners.get_mut(lamp as usize) {
        *place = other;
    }
}

/// The energy of an owner is what the lamp has so far, or one less or more.
fn beside_the_figure(state: &State, reading: &mut Reading, source: &mut Splitmix) {
    let sum = so_far(state, reading).wrapping_add(source.pick(&[0, 1, u64::MAX]));
    if let Some(at) = sum_at(state, reading, spot(state, reading.lamp, source)) {
        reading.energy[at] = sum;
    }
}

/// The energy of an owner is one that the new figure, where it is the greater one, brings to 2^64 or beside it.
fn near_the_end(state: &State, reading: &mut Reading, source: &mut Splitmix) {
    let least = so_far(state, reading).wrapping_sub(reading.figure);
    let beside = source.pick(&[0, 0, 1, u64::MAX, u64::MAX, u64::MAX - 1]);
    if let Some(at) = sum_at(state, reading, spot(state, reading.lamp, source)) {
        reading.energy[at] = least.wrapping_add(beside);
    }
}

/// The lamp and all its owners have nearly the most that 64 bits hold.
fn all_near_the_end(state: &State, reading: &mut Reading, source: &mut Splitmix) {
    let most = source.pick(&[0, 0, 3]);
    for part in 0..state.options.tables() {
        let owner = part * state.count as usize + reading.lamp as usize;
        let zoom = state.finest().saturating_sub(part);
        if let Some(at) = sum_at(state, reading, (owner, zoom)) {
            reading.energy[at] = u64::MAX - source.below(most + 1);
        }
    }
}

/// Some energies are any.
fn any_energies(_: &State, reading: &mut Reading, source: &mut Splitmix) {
    some(&mut reading.energy, source, |sum, source| match source.below(4) {
        0 => source.pick(&[0, u64::MAX, 1 << 63]),
        1 => sum.wrapping_add(source.pick(&[1, u64::MAX])),
        _ => source.bits(),
    });
}
