//! The index alone: its build, both searches and the cursor.

use super::{reply, Reply};
use crate::names;

/// What a cursor carries where there is no slot.
pub const NO_SLOT: usize = usize::MAX;

/// Builds an index of the points (`xs[i]`, `ys[i]`), which are within 0 to 1, in the columns `ids` and `coords`: N entries and 2 N.
pub fn build(
    node_size: usize,
    xs: &[f64],
    ys: &[f64],
    ids: &mut [u32],
    coords: &mut [f64],
) -> Reply {
    // SAFETY: each pointer is that of a slice borrowed for the call, beside the slice's length; `ids`, `coords` and
    // `carried` are borrowed mutably, so that nothing overlaps them.
    reply(|carried| unsafe {
        names::kdbush_build(
            node_size,
            xs.as_ptr(),
            xs.len(),
            ys.as_ptr(),
            ys.len(),
            ids.as_mut_ptr(),
            ids.len(),
            coords.as_mut_ptr(),
            coords.len(),
            carried,
        )
    })
}

/// An index as a search is lent it.
#[derive(Clone, Copy, Debug)]
pub struct Index<'a> {
    /// The node size that it was built with.
    pub node_size: usize,
    /// How many points it has.
    pub count: usize,
    /// The place that each slot names.
    pub ids: &'a [u32],
    /// The coordinates of each slot, x and y.
    pub coords: &'a [f64],
}

impl Index<'_> {
    /// The places in the box of these corners: least x, least y, greatest x, greatest y.
    pub fn range(&self, [min_x, min_y, max_x, max_y]: [f64; 4], out: &mut [u32]) -> Reply {
        let Index { node_size, count, ids, coords } = *self;
        // SAFETY: each pointer is that of a slice borrowed for the call, beside the slice's length; `out` and `carried`
        // are borrowed mutably, so that nothing overlaps them.
        reply(|carried| unsafe {
            names::kdbush_range(
                node_size,
                count,
                ids.as_ptr(),
                ids.len(),
                coords.as_ptr(),
                coords.len(),
                min_x,
                min_y,
                max_x,
                max_y,
                out.as_mut_ptr(),
                out.len(),
                carried,
            )
        })
    }

    /// The places in the circle of this centre and radius: x, y, radius.
    pub fn within(&self, [x, y, radius]: [f64; 3], out: &mut [u32]) -> Reply {
        let Index { node_size, count, ids, coords } = *self;
        // SAFETY: as for `range`.
        reply(|carried| unsafe {
            names::kdbush_within(
                node_size,
                count,
                ids.as_ptr(),
                ids.len(),
                coords.as_ptr(),
                coords.len(),
                x,
                y,
                radius,
                out.as_mut_ptr(),
                out.len(),
                carried,
            )
        })
    }

    /// The first slot that `range` answers, as the carried number; [`NO_SLOT`] where there is none.
    pub fn range_first(&self, [min_x, min_y, max_x, max_y]: [f64; 4]) -> Reply {
        let Index { node_size, count, coords, .. } = *self;
        let (start, length) = (coords.as_ptr(), coords.len());
        // SAFETY: `start` and `length` are those of a slice borrowed for the call; `slot` is borrowed mutably.
        reply(|slot| unsafe {
            names::kdbush_range_first(
                node_size, count, start, length, min_x, min_y, max_x, max_y, slot,
            )
        })
    }

    /// The slot that `range` answers after this one, likewise.
    pub fn range_after(&self, [min_x, min_y, max_x, max_y]: [f64; 4], slot: usize) -> Reply {
        let Index { node_size, count, coords, .. } = *self;
        let (start, length) = (coords.as_ptr(), coords.len());
        // SAFETY: `start` and `length` are those of a slice borrowed for the call; `next` is borrowed mutably.
        reply(|next| unsafe {
            names::kdbush_range_after(
                node_size, count, start, length, min_x, min_y, max_x, max_y, slot, next,
            )
        })
    }

    /// The first slot that `within` answers, likewise.
    pub fn within_first(&self, [x, y, radius]: [f64; 3]) -> Reply {
        let Index { node_size, count, coords, .. } = *self;
        let (start, length) = (coords.as_ptr(), coords.len());
        // SAFETY: `start` and `length` are those of a slice borrowed for the call; `slot` is borrowed mutably.
        reply(|slot| unsafe {
            names::kdbush_within_first(node_size, count, start, length, x, y, radius, slot)
        })
    }

    /// The slot that `within` answers after this one, likewise.
    pub fn within_after(&self, [x, y, radius]: [f64; 3], slot: usize) -> Reply {
        let Index { node_size, count, coords, .. } = *self;
        let (start, length) = (coords.as_ptr(), coords.len());
        // SAFETY: `start` and `length` are those of a slice borrowed for the call; `next` is borrowed mutably.
        reply(|next| unsafe {
            names::kdbush_within_after(node_size, count, start, length, x, y, radius, slot, next)
        })
    }
}
