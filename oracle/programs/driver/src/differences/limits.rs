//! Leaves with limit 0: SCOPE lists nothing, the Rust lists all where nothing is skipped.

use super::{case, example, Case};
use crate::plain::{ids, Entry};
use beside::judge::Judge;

pub fn cases<J: Judge>() -> Vec<Case> {
    vec![
        case("N1", || ids(&example::<J>().leaves(5, 0, 0))),
        case("N2", second_child_without_a_table::<J>),
    ]
}

/// The leaves of 5 when its second child carries the id 7.
fn second_child_without_a_table<J: Judge>() -> String {
    let mut build = example::<J>();
    let entry = build.table(1).expect("a table")[1];
    build.set_entry(1, 1, Entry { id: 7.0, ..entry });
    ids(&build.leaves(5, 0, 0))
}
