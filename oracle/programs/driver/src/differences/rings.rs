//! Rings that the Rust skips a part of by their rounded edges, and #106 by the squared difference on the axis.

use super::{boxes::LINE, case, lengths, load, told, Case};
use crate::plain::{columns, ids, listed, BELOW_QUARTER, REACHED, REACHING};
use asked::Build;
use beside::{judge::Judge, Rust, Said};
use questions::Question;

/// What SCOPE refuses, and the untouched Rust answers by crossed edges: the other builds have none.
pub fn refused<J: Judge>() -> Vec<Case> {
    vec![case("S6", || listed(&J::index_within(1, &LINE, [0.5, 0.5, -1.0])))]
}

pub fn cases<J: Judge>() -> Vec<Case> {
    vec![
        case("E1", || beside_a_quarter::<J>(64, 0)),
        case("E2", || beside_a_quarter::<J>(1, 0)),
        case("E3", || beside_a_quarter::<J>(1, 1)),
        case("E4", || listed(&J::index_within(1, &LINE, [1e300, 0.5, 1e200]))),
        case("E5", || lengths(&load::<J>(REACHING, &REACHED))),
        case("E6", children::<J>),
    ]
}

/// SCOPE's example on an axis: three points that pass the distance test.
fn beside_a_quarter<J: Judge>(node_size: usize, axis: usize) -> String {
    let turned = |[v, w]: [f64; 2]| if axis == 0 { [v, w] } else { [w, v] };
    let [qx, qy] = turned([1.0, 0.5]);
    // On y the index is split where x has split it before.
    let times = 1 + 2 * axis;
    let mut points = vec![turned([BELOW_QUARTER, 0.5]); 2 * times];
    points.extend(vec![turned([0.5, 0.5]); times]);
    listed(&J::index_within(node_size, &points, [qx, qy, 0.75]))
}

/// The children of the one cluster of the tables that the rule makes of these lamps, by a build of the Rust that is
/// given these tables.
fn children<J: Judge>() -> String {
    let build = Build::of("lamps".to_string(), REACHING, columns(&REACHED));
    let question = Question::Children { id: 4 };
    let answer = match Rust::<J>::over(&build).ask(&build, &question) {
        Some(Said::Items(items)) => Ok(items),
        other => Err(format!("{other:?}")),
    };
    told(answer, ids)
}
