//! The state of a build and the columns that a question is lent, and when they are spoiled.

use crate::Refusal;
use columns::Lent;
use options::{Options, MOST_POINTS, ZOOMS};
use std::ops::Range;

/// The state of a build: its options, N, and each table's start and length by zoom.
#[derive(Clone, Debug)]
pub struct State {
    pub options: Options,
    pub count: u32,
    pub starts: [u32; ZOOMS],
    pub lens: [u32; ZOOMS],
}

/// One table: the part of the columns that it is, and its index.
pub(crate) struct Table<'a> {
    pub columns: Lent<'a>,
    pub index: Index<'a>,
}

/// The index of one table.
pub(crate) struct Index<'a> {
    pub node_size: usize,
    pub ids: &'a [u32],
    pub coords: &'a [f64],
}

impl State {
    /// Refuses what is spoiled where a box or a ring is lent ids and coordinates.
    pub(crate) fn check_index(&self, lent: &Lent) -> Result<(), Refusal> {
        self.check(lent.ids.len().min(lent.coords.len() / 2))
    }

    /// Refuses what is spoiled where all columns are lent.
    pub(crate) fn check_all(&self, lent: &Lent) -> Result<(), Refusal> {
        self.check(lent.room())
    }

    /// Refuses what is spoiled where there is room for so many entries in each column.
    pub(crate) fn check(&self, room: usize) -> Result<(), Refusal> {
        match self.end() {
            Some(end) if room as u64 >= end => Ok(()),
            _ => Err(Refusal::Spoiled),
        }
    }

    /// Where the last table ends, if options, N and lengths are in bounds and the tables are packed.
    fn end(&self) -> Option<u64> {
        if !self.options.in_bounds() || !(1..=MOST_POINTS).contains(&(self.count as usize)) {
            return None;
        }
        let mut end = 0_u64;
        for zoom in (self.coarsest()..=self.finest()).rev() {
            let [start, len] = [self.starts[zoom], self.lens[zoom]];
            let least = if zoom == self.finest() { self.count } else { 1 };
            if !(least..=self.count).contains(&len) || u64::from(start) != end {
                return None;
            }
            end += u64::from(len);
        }
        Some(end)
    }

    /// The zoom of the smallest table.
    pub fn coarsest(&self) -> usize {
        usize::from(self.options.min_zoom)
    }

    /// The zoom of the table that holds the points.
    pub fn finest(&self) -> usize {
        usize::from(self.options.max_zoom) + 1
    }

    /// The zoom used: at least min_zoom, and at most max_zoom + 1.
    pub fn zoom_used(&self, zoom: u8) -> usize {
        usize::from(zoom).max(self.coarsest()).min(self.finest())
    }

    /// The positions of a table in the columns.
    pub fn positions(&self, zoom: usize) -> Range<usize> {
        let start = self.starts[zoom] as usize;
        start..start + self.lens[zoom] as usize
    }

    /// The index of a table.
    pub(crate) fn index<'a>(&self, lent: &Lent<'a>, zoom: usize) -> Index<'a> {
        let Range { start, end } = self.positions(zoom);
        Index {
            node_size: self.options.node_size,
            ids: &lent.ids[start..end],
            coords: &lent.coords[2 * start..2 * end],
        }
    }

    /// A table.
    pub(crate) fn table<'a>(&self, lent: &Lent<'a>, zoom: usize) -> Table<'a> {
        Table { columns: lent.part(self.positions(zoom)), index: self.index(lent, zoom) }
    }
}
