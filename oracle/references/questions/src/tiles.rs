//! The items of a tile, and its tally.

use crate::{
    home,
    search::{walk, Query},
    state::Table,
    Answer, Lent, Refusal, State,
};
use options::{Options, Plane};
use std::collections::BTreeSet;

/// An item of a tile: an entry's place in its table, and where it lies in the tile.
#[derive(Clone, Copy, Debug, PartialEq, Eq)]
pub struct Item {
    pub place: u32,
    pub x: i64,
    pub y: i64,
}

/// The items of tile (z, x, y).
pub fn tile(state: &State, lent: &Lent, z: u8, x: u32, y: u32) -> Answer<Item> {
    Answer::of(|items| {
        state.check_all(lent)?;
        if z > 31 || [x, y].iter().any(|at| u64::from(*at) >= 1 << z) {
            return Err(Refusal::Tile);
        }
        let table = state.table(lent, state.zoom_used(z));
        let Options { radius, extent, .. } = state.options;
        let strips = has_strips(&state.options);
        let sheet = Sheet { table, extent, z2: (1_u64 << z) as f64, strips };
        sheet.items(radius / extent, [x, y].map(f64::from), items)?;
        match items.is_empty() {
            true => Err(Refusal::EmptyTile),
            false => Ok(()),
        }
    })
}

/// The nums of the entries that are listed for tile (z, x, y) and whose centre it holds, added up, each entry once (#104).
pub fn tally(state: &State, lent: &Lent, z: u8, x: u32, y: u32) -> Result<u64, Refusal> {
    let Answer { items, refusal } = tile(state, lent, z, x, y);
    match refusal {
        // A tally over no entry is 0.
        None | Some(Refusal::EmptyTile) => {}
        Some(refusal) => return Err(refusal),
    }
    let table = state.table(lent, state.zoom_used(z));
    let places: BTreeSet<usize> = items.iter().map(|item| item.place as usize).collect();
    let at_home = |place: &usize| {
        [home(z, table.columns.x[*place]), home(z, table.columns.y[*place])] == [x, y]
    };
    Ok(places.into_iter().filter(at_home).map(|place| u64::from(table.columns.num[place])).sum())
}

/// Whether the strips run: everywhere, or by the option of #114 for longitude only.
fn has_strips(options: &Options) -> bool {
    match options.plane {
        Plane::Globe => true,
        Plane::Cartesian(_) => !options.longitude_strips_only,
    }
}

/// A table at the scale of a tile, with strips beyond the edges of the map or without.
struct Sheet<'a> {
    table: Table<'a>,
    extent: f64,
    z2: f64,
    strips: bool,
}

impl Sheet<'_> {
    /// The tile with a margin of p, then the strips, if there are any.
    fn items(&self, p: f64, [x, y]: [f64; 2], items: &mut Vec<Item>) -> Result<(), Refusal> {
        let z2 = self.z2;
        let (top, bottom) = ((y - p) / z2, (y + 1.0 + p) / z2);
        self.found([(x - p) / z2, top, (x + 1.0 + p) / z2, bottom], [x, y], items)?;
        if self.strips && x == 0.0 {
            self.found([1.0 - p / z2, top, 1.0, bottom], [z2, y], items)?;
        }
        if self.strips && x == z2 - 1.0 {
            self.found([0.0, top, p / z2, bottom], [-1.0, y], items)?;
        }
        Ok(())
    }

    /// Lists what lies in a box, as seen from a tile with this x and y.
    fn found(
        &self,
        corners: [f64; 4],
        [x, y]: [f64; 2],
        items: &mut Vec<Item>,
    ) -> Result<(), Refusal> {
        walk(&self.table.index, &Query::Range(corners), &mut |place| {
            let [cx, cy] = [self.table.columns.x[place], self.table.columns.y[place]];
            if ![cx, cy].iter().all(|v| (0.0..=1.0).contains(v)) {
                return Err(Refusal::Spoiled.into());
            }
            // Halves away from zero.
            let within = |c: f64, from: f64| (self.extent * (c * self.z2 - from)).round() as i64;
            items.push(Item { place: place as u32, x: within(cx, x), y: within(cy, y) });
            Ok(())
        })
    }
}
