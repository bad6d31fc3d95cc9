//! Ids that are no cluster: SCOPE refuses 5 or 6, the Rust answers an empty list or a number.

use super::{case, example, lamps, told, Case};
use crate::plain::{ids, Options, WORKED};
use beside::judge::Judge;

pub fn cases<J: Judge>() -> Vec<Case> {
    vec![
        case("I1", || told(example::<J>().children(3), ids)),
        case("I2", || told(deep::<J>().children(3), ids)),
        case("I3", || leaves::<J>(3)),
        case("I4", || expansion::<J>(3)),
        case("I5", || leaves::<J>(4)),
        case("I6", || expansion::<J>(4)),
        case("I7", || leaves::<J>(7)),
        case("I8", || expansion::<J>(7)),
        case("I9", || leaves::<J>(134)),
        case("I10", || expansion::<J>(134)),
        case("I11", || leaves::<J>(38)),
        case("I12", || expansion::<J>(38)),
    ]
}

/// SCOPE's lamps with every table that SCOPE allows.
fn deep<J: Judge>() -> J {
    lamps(Options { max_zoom: 30, ..WORKED })
}

fn leaves<J: Judge>(id: usize) -> String {
    ids(&example::<J>().leaves(id, 10, 0))
}

fn expansion<J: Judge>(id: usize) -> String {
    example::<J>().expansion_zoom(id).to_string()
}
