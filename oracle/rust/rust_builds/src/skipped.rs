//! What only the untouched Rust skips. It passes by a part of a split by the rounded edges of a ring, and so leaves
//! out entries that pass the distance test and lie outside such an edge. By the rule of #106 they are answered.
//!
//! So what it answers otherwise must come of that: a ring lacks only such entries, and has the others in the same
//! order; its tables are alike down to one of which a zoom is made with such a ring; and children, leaves and
//! expansion zoom differ only where such a ring is in the way, all asked over the same tables. This is counted under
//! E2 to E6 of docs/DIFFERENCES.md; anything else is a difference.

use crate::{ringed, untouched, Row, Table};
use columns::Entry;

/// How what the untouched Rust gives compares with what the rule gives.
#[derive(Clone, Copy, Debug, PartialEq, Eq)]
pub enum Beside {
    Same,
    /// They differ by what its rings skip, and by nothing else.
    Skips,
    Other,
}

/// The places that a ring answers by the rule, and those that the untouched Rust answers: it may lack entries, each
/// of which passes the distance test and lies outside a rounded edge; the others come in the same order. `at` is where
/// the entry of a place lies.
pub fn ring<T: PartialEq + Copy>(
    circle: [f64; 3],
    at: impl Fn(T) -> [f64; 2],
    ours: &[T],
    theirs: &[T],
) -> Beside {
    let mut rest = theirs;
    let mut beside = Beside::Same;
    for place in ours {
        match rest.split_first() {
            Some((first, others)) if first == place => rest = others,
            _ if is_cut_off(circle, at(*place)) => beside = Beside::Skips,
            _ => return Beside::Other,
        }
    }
    match rest.is_empty() {
        true => beside,
        false => Beside::Other,
    }
}

/// Whether a point passes the distance test of a ring and lies outside one of its rounded edges.
fn is_cut_off([qx, qy, radius]: [f64; 3], [x, y]: [f64; 2]) -> bool {
    let (dx, dy) = (x - qx, y - qy);
    let passes = dx * dx + dy * dy <= radius * radius;
    let outside = |v: f64, q: f64| v < q - radius || q + radius < v;
    passes && (outside(x, qx) || outside(y, qy))
}

/// The tables of the same points. The first table in which the two differ is made of one in which they are alike but
/// for its marks; around an entry of that one a ring of the zoom must skip, and none may differ otherwise. What comes
/// of it further down is not looked at.
pub fn tables(ours: &ringed::Supercluster, theirs: &untouched::Supercluster) -> Beside {
    let all: Vec<[Table; 2]> = ringed::tables_of(ours)
        .zip(untouched::tables_of(theirs))
        .map(|(ours, theirs)| [ours, theirs])
        .collect();
    let Some(first) = all.iter().position(|pair| !are_alike(pair, |row| row)) else {
        return Beside::Same;
    };
    let made_of = match are_alike(&all[first], unmarked) {
        true => Some(first),
        false => first.checked_sub(1),
    };
    made_of.map_or(Beside::Other, |at| rings(ours, theirs, &all[at][0]))
}

/// Whether two tables have the same rows, as far as `part` looks at them.
fn are_alike([ours, theirs]: &[Table; 2], part: fn(Row) -> Row) -> bool {
    ours.rows().map(part).eq(theirs.rows().map(part))
}

/// A row without what the build of the next table writes into it.
fn unmarked(row: Row) -> Row {
    Row { entry: Entry { seen: 0, parent: 0, ..row.entry }, ..row }
}

/// The rings of a zoom around each entry of the table that the zoom is made of, which both have alike.
fn rings(ours: &ringed::Supercluster, theirs: &untouched::Supercluster, made_of: &Table) -> Beside {
    let Some(zoom) = made_of.zoom.checked_sub(1) else {
        return Beside::Other;
    };
    let radius = ours.options.radius / (ours.options.extent * 2.0_f64.powi(zoom as i32));
    let entries: Vec<Entry> = made_of.rows().map(|row| row.entry).collect();
    let at = |place: usize| [entries[place].x, entries[place].y];
    let mut beside = Beside::Same;
    for entry in &entries {
        let circle = [entry.x, entry.y, radius];
        let answers = ringed::within(ours, made_of.zoom, circle);
        match ring(circle, at, &answers, &untouched::within(theirs, made_of.zoom, circle)) {
            Beside::Same => {}
            Beside::Skips => beside = Beside::Skips,
            Beside::Other => return Beside::Other,
        }
    }
    match beside {
        // Nothing was skipped, and yet they differ.
        Beside::Same => Beside::Other,
        _ => beside,
    }
}
