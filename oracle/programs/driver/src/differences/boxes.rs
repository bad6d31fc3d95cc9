//! Box and search numbers that SCOPE refuses by 9.

use super::{case, example, load, told, Case};
use crate::plain::{ids, listed, Options, Plane, WORKED};
use beside::judge::Judge;
use points::odd::{INF, NAN};

pub fn cases<J: Judge>() -> Vec<Case> {
    let mut all = boxes::<J>();
    all.extend(searches::<J>());
    all
}

fn boxes<J: Judge>() -> Vec<Case> {
    vec![
        case("B1", || plan::<J>([NAN, 0.0, 1.0, 1.0])),
        case("B2", || plan::<J>([0.0, 0.0, 1.0, NAN])),
        case("B3", || plan::<J>([-INF, 0.0, INF, 1.0])),
        case("B4", || globe::<J>([NAN, -90.0, 180.0, 90.0])),
        case("B5", || globe::<J>([-INF, -90.0, INF, 90.0])),
        case("B6", || globe::<J>([INF, -90.0, 180.0, 90.0])),
        case("B7", || globe::<J>([-180.0, NAN, 180.0, 90.0])),
        case("B8", || globe::<J>([-180.0, -100.0, 180.0, 100.0])),
        case("B9", || globe::<J>([-180.0, -INF, 180.0, INF])),
    ]
}

fn searches<J: Judge>() -> Vec<Case> {
    vec![
        case("S1", || ring::<J>(64, [NAN, 0.5, 1.0])),
        case("S2", || ring::<J>(64, [0.5, 0.5, NAN])),
        case("S3", || ring::<J>(64, [0.5, 0.5, INF])),
        case("S4", || ring::<J>(64, [INF, 0.5, INF])),
        case("S5", || ring::<J>(64, [0.5, 0.5, -1.0])),
        case("S7", || range::<J>([NAN, 0.0, 1.0, 1.0])),
        case("S8", || range::<J>([-INF, 0.0, INF, 1.0])),
    ]
}

/// A box at zoom 2 of SCOPE's worked build.
fn plan<J: Judge>(corners: [f64; 4]) -> String {
    told(example::<J>().in_box(corners, 2), ids)
}

/// A box at zoom 2 over lamps at longitudes -90, 0 and 90 on the equator.
fn globe<J: Judge>(corners: [f64; 4]) -> String {
    let options = Options { plane: Plane::Globe, ..WORKED };
    let build = load::<J>(options, &[[-90.0, 0.0], [0.0, 0.0], [90.0, 0.0]]);
    told(build.in_box(corners, 2), ids)
}

/// Three points for an index alone.
pub const LINE: [[f64; 2]; 3] = [[0.25, 0.5], [0.5, 0.5], [0.75, 0.5]];

fn ring<J: Judge>(node_size: usize, query: [f64; 3]) -> String {
    listed(&J::index_within(node_size, &LINE, query))
}

fn range<J: Judge>(corners: [f64; 4]) -> String {
    listed(&J::index_range(64, &LINE, corners))
}
