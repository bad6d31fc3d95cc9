//! Columns that no build made: ids past the end, repeated ids, coordinates out of order, not finite or
//! no numbers, another node size or fewer slots than the index was built with. The judge is the
//! reference written from the scope's text; the Rust's searches, which trust every column, are held to it too.

use super::{
    arrangement::Columns,
    queries, reference, rust,
    searches::{self, Searches},
};
use crate::{report::Group, Form};
use points::{
    odd::{EDGES, WILD},
    SHAPES,
};
use reachvolem::lent::Index as Lent;
use splitmix::Splitmix;

/// Damaged indexes of all kinds, and queries to each.
pub fn run(form: Form, judged: &mut Group) -> [Group; 3] {
    let mut source = Splitmix(2);
    let mut searches = Searches::new(
        "index, range over damaged columns",
        "index, within over damaged columns",
        "index, cursor over damaged columns",
    );
    for round in 0..form.of([20_000, 200_000]) {
        let most = if round % 64 == 0 { 2_000 } else { 60 };
        let count = 1 + source.below(most) as usize;
        let node_size = source.pick(&[1, 2, 3, 8, 64]);
        let columns = columns(count, node_size, round, &mut source);
        let lent = lent(&columns, node_size, round, &mut source);
        one_index(&lent, round, &mut source, &mut searches, judged);
    }
    searches.groups()
}

/// Columns of so many slots, damaged by the kind that is due.
fn columns(count: usize, node_size: usize, round: usize, source: &mut Splitmix) -> Columns {
    let points = points::made(SHAPES[round % SHAPES.len()], count, source);
    let mut columns = rust::patched(node_size, &points.xs, &points.ys);
    match round % 7 {
        0 => columns.coords.iter_mut().for_each(|v| *v = source.unit()),
        1 => columns.coords.iter_mut().for_each(|v| *v = source.pick(&WILD)),
        2 => columns.coords.iter_mut().for_each(|v| *v = source.pick(&EDGES)),
        3 => change_some(&mut columns.coords, source, |source| source.pick(&WILD)),
        4 => change_some(&mut columns.coords, source, |source| source.unit()),
        5 => change_medians(&mut columns.coords, source),
        _ => {}
    }
    let places = count as u64;
    match round % 5 {
        0 => change_some(&mut columns.ids, source, |source| source.below(places) as u32),
        1 => change_some(&mut columns.ids, source, |source| (places + source.below(3)) as u32),
        2 => change_some(&mut columns.ids, source, |_| u32::MAX),
        3 => columns.ids.iter_mut().for_each(|id| *id = source.below(2 * places) as u32),
        _ => {}
    }
    columns
}

/// Changes a few entries of a column.
fn change_some<T>(column: &mut [T], source: &mut Splitmix, value: impl Fn(&mut Splitmix) -> T) {
    for _ in 0..1 + source.below(4) {
        let at = source.below(column.len() as u64) as usize;
        column[at] = value(source);
    }
}

/// Changes coordinates by which the whole index and its halves are split, each or none: x of the first median, y of
/// the next two.
fn change_medians(coords: &mut [f64], source: &mut Splitmix) {
    let last = coords.len() / 2 - 1;
    let m = last / 2;
    for (slot, axis) in [(m, 0), (m / 2, 1), ((m + 1 + last) / 2, 1)] {
        if source.below(3) > 0 {
            coords[2 * slot.min(last) + axis] = source.pick(&WILD);
        }
    }
}

/// The columns as a question is lent them: with the node size and the slots that they were built with,
/// or others.
fn lent<'a>(
    columns: &'a Columns,
    node_size: usize,
    round: usize,
    source: &mut Splitmix,
) -> Lent<'a> {
    let Columns { ids, coords } = columns;
    let count = match round % 3 {
        0 => 1 + source.below(ids.len() as u64) as usize,
        _ => ids.len(),
    };
    let node_size = match round % 4 {
        0 => source.pick(&[1, 2, 3, 8, 64, 65_535]),
        _ => node_size,
    };
    Lent { node_size, count, ids, coords }
}

/// A few queries to one index.
fn one_index(
    lent: &Lent,
    round: usize,
    source: &mut Splitmix,
    searches: &mut Searches,
    judged: &mut Group,
) {
    let rust = rust::Patched::over(lent);
    let first = 4 * round % 16;
    for query in queries::around(lent, first..first + 4, source) {
        let about = || {
            format!("index {round}, node_size {}, {} slots, {query:?}", lent.node_size, lent.count)
        };
        if let Some(number) = reference::search_refusal(lent, &query, true) {
            searches.compare_refused(lent, &query, number, about);
            continue;
        }
        let slots = reference::slots(lent, &query);
        let places: Vec<u32> = slots.iter().map(|slot| lent.ids[*slot]).collect();
        judged.compare(about, searches::other_places(lent, &slots, &rust.places(&query)));
        searches.compare(lent, &query, &slots, &places, about);
        searches.compare_any_slot(lent, &query, source, about);
    }
}
