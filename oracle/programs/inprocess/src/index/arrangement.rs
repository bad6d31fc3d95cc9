//! The build of an index: every id and the bits of every coordinate, and what stands past them.

use super::{reference::plain, rust};
use crate::{
    report::{other, other_column, Group},
    GUARD,
};
use points::Points;
use reachvolem::lent::Reply;
use rust_builds::WITHOUT_WINDOW;

/// The two columns of an index.
pub struct Columns {
    pub ids: Vec<u32>,
    pub coords: Vec<f64>,
}

impl Columns {
    /// Columns that hold nothing of an index yet.
    pub fn old(ids_length: usize, coords_length: usize) -> Columns {
        let ids = (0..ids_length as u32).map(|i| 0xf000_0000 | i).collect();
        let coords = (0..coords_length).map(|i| -1.5 - i as f64).collect();
        Columns { ids, coords }
    }

    /// These columns, then old contents from where they end, up to the given lengths.
    fn followed_by_old(&self, ids_length: usize, coords_length: usize) -> Columns {
        let mut all = Columns::old(ids_length, coords_length);
        all.ids[..self.ids.len()].copy_from_slice(&self.ids);
        all.coords[..self.coords.len()].copy_from_slice(&self.coords);
        all
    }

    /// These columns and so many more slots, which belong to no index and lie among its points.
    pub fn lengthened(&self, more: usize) -> (Vec<u32>, Vec<f64>) {
        let (mut ids, mut coords) = (self.ids.clone(), self.coords.clone());
        ids.extend(self.ids.iter().cycle().take(more));
        coords.extend(self.coords.iter().cycle().take(2 * more));
        (ids, coords)
    }

    /// Where other columns differ from these, if they do: coordinates by their bits.
    fn differ(&self, found: &Columns) -> Option<String> {
        let bits = |coords: &[f64]| coords.iter().map(|v| v.to_bits()).collect::<Vec<_>>();
        other_column("ids", &self.ids, &found.ids)
            .or_else(|| other_column("coords", &bits(&self.coords), &bits(&found.coords)))
    }
}

/// What a build is asked for: node size, points, and the lengths of the lent columns.
#[derive(Clone, Copy)]
pub struct Request<'a> {
    pub node_size: usize,
    pub xs: &'a [f64],
    pub ys: &'a [f64],
    pub ids_length: usize,
    pub coords_length: usize,
}

impl Request<'_> {
    /// How the port's build differs from this reply and these columns, if it does. No columns: they
    /// keep their contents.
    pub fn differs(&self, expected: Reply, columns: Option<&Columns>) -> Option<String> {
        let (ids_whole, coords_whole) = (self.ids_length + GUARD, self.coords_length + GUARD);
        let mut found = Columns::old(ids_whole, coords_whole);
        let ids = &mut found.ids[..self.ids_length];
        let coords = &mut found.coords[..self.coords_length];
        let reply = reachvolem::lent::build(self.node_size, self.xs, self.ys, ids, coords);
        let columns = match columns {
            Some(columns) => columns.followed_by_old(ids_whole, coords_whole),
            None => Columns::old(ids_whole, coords_whole),
        };
        other("reply", expected, reply).or_else(|| columns.differ(&found))
    }
}

/// Compares one build, in columns that are longer than need be by `tail` slots and an odd coordinate.
/// Gives the columns of the patched Rust.
pub fn compare(
    node_size: usize,
    points: &Points,
    tail: usize,
    about: &str,
    group: &mut Group,
) -> Columns {
    let Points { xs, ys, .. } = points;
    let ids_length = xs.len() + tail;
    let coords_length = 2 * xs.len() + 3 * tail / 2;
    let request = Request { node_size, xs, ys, ids_length, coords_length };
    let patched = rust::patched(node_size, xs, ys);
    let beside = |judge| format!("{about}, beside the {judge} Rust");
    group.compare(|| beside("patched"), request.differs(plain(0), Some(&patched)));
    if xs.len() <= WITHOUT_WINDOW {
        let untouched = rust::untouched(node_size, xs, ys);
        group.compare(|| beside("untouched"), request.differs(plain(0), Some(&untouched)));
    }
    patched
}
