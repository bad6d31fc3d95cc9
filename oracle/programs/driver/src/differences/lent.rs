//! Tables changed after the build: SCOPE checks what it is lent and refuses 11, the Rust trusts it.

use super::{apart, case, example, load, told, Case};
use crate::plain::{ids, points, spots, Entry, LAMPS, WORKED};
use beside::judge::Judge;

pub fn cases<J: Judge>() -> Vec<Case> {
    vec![
        case("L1", slot_past_the_table::<J>),
        case("L2", || child_id::<J>(3.0)),
        case("L3", || child_id::<J>(7.0)),
        case("L4", || child_id::<J>(134.0)),
        apart("L5", || child_id::<J>(5.0)),
        case("L6", one_child_twice::<J>),
        case("L7", no_table::<J>),
        case("L8", moved_cluster::<J>),
        case("L9", moved_lamp::<J>),
        case("L10", lamp_that_is_none::<J>),
        case("L11", child_in_the_smallest_table::<J>),
    ]
}

fn slot_past_the_table<J: Judge>() -> String {
    let mut build = example::<J>();
    build.set_slot(2, 0, 9);
    told(build.children(6), ids)
}

/// The leaves of 5 when its first child carries another id.
fn child_id<J: Judge>(id: f64) -> String {
    let mut build = example::<J>();
    change(&mut build, 1, |entry| Entry { id, ..entry });
    ids(&build.leaves(5, 10, 0))
}

/// SCOPE's first three lamps; cluster 4 holds cluster 5 and lamp 2, and both slots name cluster 5.
fn one_child_twice<J: Judge>() -> String {
    let mut build = load::<J>(WORKED, &points(&LAMPS[..3]));
    build.set_slot(1, 1, 0);
    ids(&build.leaves(4, 10, 0))
}

fn no_table<J: Judge>() -> String {
    let mut build = example::<J>();
    build.drop_table(1);
    told(build.in_box([0.0, 0.0, 1.0, 1.0], 1), ids)
}

fn moved_cluster<J: Judge>() -> String {
    let mut build = example::<J>();
    change(&mut build, 0, |entry| Entry { x: 1.5, ..entry });
    told(build.tile(0, 0.0, 0.0), spots)
}

fn moved_lamp<J: Judge>() -> String {
    let mut build = load::<J>(WORKED, &[[0.5, 0.5]]);
    change(&mut build, 0, |entry| Entry { x: 0.25, ..entry });
    told(build.tile(0, 0.0, 0.0), spots)
}

fn lamp_that_is_none<J: Judge>() -> String {
    let mut build = example::<J>();
    change(&mut build, 2, |entry| Entry { id: 9.0, ..entry });
    told(build.children(6), ids)
}

fn child_in_the_smallest_table<J: Judge>() -> String {
    let mut build = example::<J>();
    change(&mut build, 0, |entry| Entry { parent: 4.0, ..entry });
    told(build.children(4), ids)
}

/// Changes the first entry of a table.
fn change<J: Judge>(build: &mut J, zoom: usize, with: impl Fn(Entry) -> Entry) {
    let entry = build.table(zoom).expect("a table")[0];
    build.set_entry(zoom, 0, with(entry));
}
