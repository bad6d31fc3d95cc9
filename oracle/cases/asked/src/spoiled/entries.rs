//! Changes of the entries of the tables.

use crate::Build;
use points::odd::WILD;
use questions::{decoded, encoded, ZOOMS};
use splitmix::Splitmix;

/// Changes up to four entries of a column, or one in three of them.
pub fn some<T>(column: &mut [T], source: &mut Splitmix, value: impl Fn(&T, &mut Splitmix) -> T) {
    if column.is_empty() {
        return;
    }
    let few = source.below(4) != 0;
    let times = if few { 1 + source.below(4) as usize } else { column.len().div_ceil(3) };
    for _ in 0..times {
        let at = source.below(column.len() as u64) as usize;
        column[at] = value(&column[at], source);
    }
}

/// x or y.
pub fn coordinates(build: &mut Build, source: &mut Splitmix) {
    let column = match source.below(2) {
        0 => &mut build.columns.x,
        _ => &mut build.columns.y,
    };
    some(column, source, |_, source| match source.below(3) {
        0 => source.unit(),
        _ => source.pick(&WILD),
    });
}

/// An id: of a cluster by chance, below N, without a table, past a table, beside another.
fn id(build: &Build, source: &mut Splitmix) -> u32 {
    let state = &build.state;
    let zoom = state.zoom_used(source.below(ZOOMS as u64) as u8).min(ZOOMS - 1);
    let length = state.lens[zoom].clamp(1, 1 << 20);
    match source.below(8) {
        0 => source.below(u64::from(state.count) + 1) as u32,
        1 => source.bits() as u32,
        2 => encoded(state.count, length as usize, zoom),
        3 => state.count.wrapping_add(source.below(ZOOMS as u64) as u32),
        4 if !build.columns.id.is_empty() => source.pick(&build.columns.id),
        5 if !build.columns.parent.is_empty() => source.pick(&build.columns.parent),
        _ => encoded(state.count, source.below(u64::from(length)) as usize, zoom),
    }
}

/// Ids, those of lamps too.
pub fn ids(build: &mut Build, source: &mut Splitmix) {
    let mut column = std::mem::take(&mut build.columns.id);
    some(&mut column, source, |_, source| id(build, source));
    build.columns.id = column;
}

/// Parents: the entries are among the children of another cluster, perhaps of their own.
pub fn parents(build: &mut Build, source: &mut Splitmix) {
    let mut column = std::mem::take(&mut build.columns.parent);
    let one = id(build, source);
    some(&mut column, source, |_, source| match source.below(4) {
        0 => u32::MAX,
        1 => one,
        _ => id(build, source),
    });
    build.columns.parent = column;
}

/// Of the children of some clusters only one is left.
pub fn sole_children(build: &mut Build, source: &mut Splitmix) {
    let positions: Vec<usize> = (0..build.columns.parent.len()).collect();
    let mut kept = Vec::new();
    for at in positions {
        let parent = build.columns.parent[at];
        if decoded(build.state.count, parent).is_none() || source.below(16) == 0 {
            continue;
        }
        match kept.contains(&parent) {
            true => build.columns.parent[at] = u32::MAX,
            false => kept.push(parent),
        }
    }
}

/// Nums: of lamps that are clusters and clusters that are lamps, of none, of more than there are.
pub fn nums(build: &mut Build, source: &mut Splitmix) {
    let count = build.state.count;
    some(&mut build.columns.num, source, |num, source| match source.below(3) {
        0 => source.pick(&[num.wrapping_add(1), num.wrapping_sub(1), count, count.wrapping_mul(2)]),
        _ => source.pick(&[0, 1, 2, 3, u32::MAX, u32::MAX - 1, 1 << 31]),
    });
}

/// Energies, which no question looks at: any.
pub fn energies(build: &mut Build, source: &mut Splitmix) {
    some(&mut build.columns.energy, source, |_, source| match source.below(3) {
        0 => source.pick(&[0, u64::MAX, 1 << 63]),
        _ => source.bits(),
    });
}

/// Marks, which no question looks at.
pub fn marks(build: &mut Build, source: &mut Splitmix) {
    some(&mut build.columns.seen, source, |_, source| source.bits() as u8);
}
