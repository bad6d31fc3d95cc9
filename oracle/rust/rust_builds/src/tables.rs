//! The Rust's tables as the port packs them: one after the other in columns, the finest first.

use columns::{Columns, Entry, Slot, NO_PARENT, UNSEEN};
use options::{Plane, ZOOMS};
use std::collections::HashMap;

/// The numbers of an entry in the Rust's data.
const STRIDE: usize = 6;

/// A table where the Rust keeps it.
pub struct Table<'a> {
    pub zoom: usize,
    pub data: &'a [f64],
    pub ids: &'a [usize],
    pub coords: &'a [f64],
}

/// An entry of a table and the slot at the same position of its index, in the port's numbers.
#[derive(Clone, Copy, Debug, PartialEq)]
pub struct Row {
    pub entry: Entry,
    pub slot: Slot,
}

impl Table<'_> {
    /// The entries, each with the slot of its position.
    pub fn rows(&self) -> impl ExactSizeIterator<Item = Row> + '_ {
        let entries = self.data.chunks_exact(STRIDE);
        assert_eq!(entries.len(), self.ids.len(), "a table with its index");
        let slots = self.ids.iter().zip(self.coords.chunks_exact(2));
        entries.map(entry).zip(slots).map(|(entry, (place, at))| {
            let place = u32::try_from(*place).expect("a place of 32 bits");
            Row { entry, slot: Slot { place, at: [at[0], at[1]] } }
        })
    }
}

/// An entry of the Rust's data, which know of no energy.
fn entry(data: &[f64]) -> Entry {
    Entry {
        x: data[0],
        y: data[1],
        seen: if data[2] == f64::INFINITY { UNSEEN } else { whole(data[2]) as u8 },
        id: whole(data[3]),
        parent: if data[4] == -1.0 { NO_PARENT } else { whole(data[4]) },
        num: whole(data[5]),
        energy: 0,
    }
}

/// The numbers of an entry as the Rust's data have them.
pub fn data(entry: &Entry) -> [f64; STRIDE] {
    let seen = if entry.seen == UNSEEN { f64::INFINITY } else { f64::from(entry.seen) };
    let parent = if entry.parent == NO_PARENT { -1.0 } else { f64::from(entry.parent) };
    [entry.x, entry.y, seen, f64::from(entry.id), parent, f64::from(entry.num)]
}

/// A whole number of the Rust's data.
fn whole(number: f64) -> u32 {
    let whole = number as u32;
    assert!(f64::from(whole) == number, "{number} is no whole number of 32 bits");
    whole
}

/// What stands for the owner of a lamp that no entry of a table lists, or that two do.
pub const NOT_ONE: u32 = u32::MAX;

/// The tables of a build in columns, and where each starts and how long it is, by zoom.
#[derive(Clone, Debug, Default)]
pub struct Tables {
    pub columns: Columns,
    pub starts: [u32; ZOOMS],
    pub lens: [u32; ZOOMS],
    /// For each table, the finest first, the place of the one entry that lists each lamp, or `NOT_ONE`.
    pub listed: Vec<u32>,
}

impl Tables {
    /// Packs tables from position 0. An entry's energy is that of the lamps that `lamps` lists for its id, or its own; and these
    /// are the lamps that it owns.
    pub(crate) fn packed<'a>(
        tables: impl Iterator<Item = Table<'a>>,
        energies: &[u64],
        lamps: impl Fn(u32) -> Vec<usize>,
    ) -> Tables {
        let mut all = Tables::default();
        // A cluster that is carried on keeps its id.
        let mut lists: HashMap<u32, Vec<usize>> = HashMap::new();
        for table in tables {
            all.starts[table.zoom] = all.columns.x.len() as u32;
            all.lens[table.zoom] = table.ids.len() as u32;
            let mut owners = vec![None; energies.len()];
            for (place, Row { entry, slot }) in table.rows().enumerate() {
                let own = [entry.id as usize];
                let listed = match entry.num {
                    0 | 1 => &own[..],
                    _ => lists.entry(entry.id).or_insert_with(|| lamps(entry.id)),
                };
                let energy = listed.iter().map(|lamp| energies[*lamp]).sum();
                for lamp in listed {
                    let owner = &mut owners[*lamp];
                    *owner = Some(if owner.is_none() { place as u32 } else { NOT_ONE });
                }
                all.columns.push(&Entry { energy, ..entry }, &slot);
            }
            all.listed.extend(owners.into_iter().map(|owner| owner.unwrap_or(NOT_ONE)));
        }
        all
    }

    /// What the port is given for y, where the Rust was given these: on the globe they are latitudes, and
    /// what the Rust makes of them stands in the finest table.
    pub fn lent_ys(&self, plane: &Plane, ys: &[f64]) -> Vec<f64> {
        match plane {
            Plane::Globe => self.columns.y[..ys.len()].to_vec(),
            Plane::Cartesian(_) => ys.to_vec(),
        }
    }
}
