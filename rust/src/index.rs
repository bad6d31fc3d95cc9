//! The index alone.

use crate::{
    lent::{self, Reply, NO_SLOT},
    room::listed,
    Refused,
};

/// The index of points within 0 to 1, which answers boxes and circles without a build of tables.
///
/// ```
/// use reachvolem::Index;
///
/// let index = Index::build(64, &[0.1, 0.2, 0.9], &[0.5, 0.5, 0.5])?;
/// assert_eq!(index.range([0.0, 0.0, 0.5, 1.0])?, [0, 1]);
/// assert_eq!(index.within(0.95, 0.5, 0.1)?, [2]);
/// // One answer after the other, with no list.
/// assert_eq!(index.walk_within(0.15, 0.5, 0.06)?.next(), Some(0));
/// # Ok::<(), reachvolem::Refused>(())
/// ```
#[derive(Clone, Debug)]
pub struct Index {
    node_size: usize,
    ids: Vec<u32>,
    coords: Vec<f64>,
}

impl Index {
    /// The index of the points (`xs[i]`, `ys[i]`).
    pub fn build(node_size: usize, xs: &[f64], ys: &[f64]) -> Result<Index, Refused> {
        // Without room first, so that a refusal by what is given is told before anything is set aside. Points that are taken
        // are refused 4 here, as there is one at least.
        match lent::build(node_size, xs, ys, &mut [], &mut []).accepted() {
            Err(Refused::Tables) => {}
            refused => return refused.map(|_| Index { node_size, ids: vec![], coords: vec![] }),
        }
        let (mut ids, mut coords) = (vec![0; xs.len()], vec![0.0; 2 * xs.len()]);
        lent::build(node_size, xs, ys, &mut ids, &mut coords).accepted()?;
        Ok(Index { node_size, ids, coords })
    }

    /// The index as the layer below is lent it.
    pub fn lent(&self) -> lent::Index<'_> {
        let Index { node_size, ids, coords } = self;
        lent::Index { node_size: *node_size, count: ids.len(), ids, coords }
    }

    /// The places in the box of these corners: least x, least y, greatest x, greatest y.
    pub fn range(&self, bbox: [f64; 4]) -> Result<Vec<u32>, Refused> {
        listed(|out| self.lent().range(bbox, out))
    }

    /// The places at most `radius` from (x, y).
    pub fn within(&self, x: f64, y: f64, radius: f64) -> Result<Vec<u32>, Refused> {
        listed(|out| self.lent().within([x, y, radius], out))
    }

    /// What [`range`](Index::range) answers, one place after the other.
    pub fn walk_range(&self, bbox: [f64; 4]) -> Result<Walk<'_>, Refused> {
        Walk::begun(self.lent(), Query::Range(bbox))
    }

    /// What [`within`](Index::within) answers, one place after the other.
    pub fn walk_within(&self, x: f64, y: f64, radius: f64) -> Result<Walk<'_>, Refused> {
        Walk::begun(self.lent(), Query::Within([x, y, radius]))
    }
}

/// What a walk looks for.
#[derive(Clone, Copy, Debug)]
enum Query {
    Range([f64; 4]),
    Within([f64; 3]),
}

/// The places that a search answers, in its order, found one by one: no list is made, and one may stop at any.
#[derive(Clone, Debug)]
pub struct Walk<'a> {
    index: lent::Index<'a>,
    query: Query,
    slot: usize,
}

impl<'a> Walk<'a> {
    /// At the first slot, or refused.
    fn begun(index: lent::Index<'a>, query: Query) -> Result<Walk<'a>, Refused> {
        let first = match query {
            Query::Range(bbox) => index.range_first(bbox),
            Query::Within(circle) => index.within_first(circle),
        };
        Ok(Walk { index, query, slot: first.accepted()? })
    }

    /// The slot that follows, as it is replied.
    fn after(&self) -> Reply {
        match self.query {
            Query::Range(bbox) => self.index.range_after(bbox, self.slot),
            Query::Within(circle) => self.index.within_after(circle, self.slot),
        }
    }
}

impl Iterator for Walk<'_> {
    type Item = u32;

    fn next(&mut self) -> Option<u32> {
        if self.slot == NO_SLOT {
            return None;
        }
        let place = self.index.ids[self.slot];
        // Over the same columns and numbers as the first slot, the next is not refused.
        self.slot = self.after().accepted().unwrap_or(NO_SLOT);
        Some(place)
    }
}
