//! Counts and points outside SCOPE's bounds: SCOPE refuses 2 and 3.

use super::{apart, case, lengths, load, spread, Case};
use crate::plain::{listed, Options, Plane, WORKED};
use beside::judge::Judge;

pub fn cases<J: Judge>() -> Vec<Case> {
    vec![
        apart("C1", || lengths(&load::<J>(WORKED, &[]))),
        case("C2", many::<J>),
        case("C3", || held::<J>(WORKED, [1.5, 0.5])),
        case("C4", || held::<J>(WORKED, [0.5, -0.25])),
        case("C5", || held::<J>(WORKED, [f64::INFINITY, 0.5])),
        case("C6", || held::<J>(WORKED, [f64::NAN, 0.5])),
        case("C7", || held::<J>(GLOBE, [181.0, 0.0])),
    ]
}

const GLOBE: Options = Options { plane: Plane::Globe, ..WORKED };

/// One point more than SCOPE takes, with radius 0.
fn many<J: Judge>() -> String {
    let options = Options { max_zoom: 0, radius: 0.0, ..WORKED };
    lengths(&load::<J>(options, &spread(1_048_577)))
}

/// What the finest table holds for one lamp, and what a ring of radius 0.25 at that place finds.
fn held<J: Judge>(options: Options, point: [f64; 2]) -> String {
    let build = load::<J>(options, &[point]);
    let entry = build.table(2).expect("table 2")[0];
    let found = listed(&build.within(2, entry.x, entry.y, 0.25));
    format!("holds ({},{}); ring: {found}", entry.x, entry.y)
}
