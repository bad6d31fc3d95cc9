//! Options outside SCOPE's bounds: SCOPE refuses 1, the Rust builds or panics.

use super::{apart, case, entries, lamps, load, told, Case};
use crate::{
    attempt::attempt,
    plain::{ids, spots, Options, Plane, Range, UNIT, WORKED},
};
use beside::judge::Judge;
use points::odd::{INF, NAN};

pub fn cases<J: Judge>() -> Vec<Case> {
    let mut all = zooms_and_node_size::<J>();
    all.extend(radius_and_extent::<J>());
    all.extend(ranges::<J>());
    all
}

fn zooms_and_node_size<J: Judge>() -> Vec<Case> {
    vec![
        case("O1", max_zoom_31::<J>),
        case("O2", max_zoom_255::<J>),
        case("O3", min_zoom_2::<J>),
        case("O4", || node_size::<J>(0, 1)),
        apart("O5", || node_size::<J>(0, 2)),
        case("O6", || node_size::<J>(0, 3)),
        apart("O7", || node_size::<J>(0, 4)),
        case("O8", || node_size::<J>(65_536, 3)),
    ]
}

fn radius_and_extent<J: Judge>() -> Vec<Case> {
    vec![
        case("O9", || radius::<J>(NAN)),
        case("O10", || radius::<J>(-64.0)),
        case("O11", || radius::<J>(INF)),
        case("O12", || radius::<J>(65_537.0)),
        case("O13", || extent::<J>(NAN)),
        case("O14", || extent::<J>(0.0)),
        case("O15", || extent::<J>(-512.0)),
        case("O16", || extent::<J>(INF)),
        case("O17", || extent::<J>(0.5)),
        case("O18", || extent::<J>(65_537.0)),
    ]
}

fn ranges<J: Judge>() -> Vec<Case> {
    vec![
        case("O19", || scale::<J>(0.0)),
        case("O20", || scale::<J>(-1.0)),
        case("O21", || scale::<J>(INF)),
        case("O22", offset_nan::<J>),
        case("O23", maxima_0::<J>),
        case("O24", min_x_nan::<J>),
    ]
}

/// The one cluster of two lamps at the same place, its decoding, and what asking for it gives.
fn max_zoom_31<J: Judge>() -> String {
    let options = Options { max_zoom: 31, ..WORKED };
    let build = load::<J>(options, &[[0.5, 0.5], [0.5, 0.5]]);
    let id = build.table(0).expect("table 0")[0].id as usize;
    let (origin, table) = build.decode(id);
    let children = told(build.children(id), ids);
    format!("cluster {id} decodes to origin {origin}, table {table}; children: {children}")
}

/// Two lamps that are one cluster from table 1 down.
fn max_zoom_255<J: Judge>() -> String {
    let options = Options { max_zoom: 255, ..WORKED };
    let build = load::<J>(options, &[[0.4375, 0.5], [0.5, 0.5]]);
    let found = attempt(|| told(build.in_box([0.0, 0.0, 1.0, 1.0], 255), ids));
    format!("box: {found}")
}

fn min_zoom_2<J: Judge>() -> String {
    let options = Options { min_zoom: 2, ..WORKED };
    entries(&lamps::<J>(options))
}

/// Lamps too far from each other to form a cluster.
fn node_size<J: Judge>(node_size: usize, count: usize) -> String {
    let options = Options { node_size, ..WORKED };
    let lamps = [[0.0, 0.5], [0.5, 0.5], [1.0, 0.5], [0.25, 0.5]];
    entries(&load::<J>(options, &lamps[..count]))
}

fn radius<J: Judge>(radius: f64) -> String {
    with_tile(lamps::<J>(Options { radius, ..WORKED }))
}

fn extent<J: Judge>(extent: f64) -> String {
    with_tile(lamps::<J>(Options { extent, ..WORKED }))
}

/// The lengths of the tables, and tile (0,0,0).
fn with_tile<J: Judge>(build: J) -> String {
    let tile = told(build.tile(0, 0.0, 0.0), spots);
    format!("{}; {tile}", entries(&build))
}

fn scale<J: Judge>(scale: f64) -> String {
    held::<J>(Range { scale: Some(scale), ..UNIT })
}

fn offset_nan<J: Judge>() -> String {
    held::<J>(Range { offset: Some(NAN), ..UNIT })
}

fn maxima_0<J: Judge>() -> String {
    held::<J>(Range { max_x: 0.0, max_y: 0.0, scale: None, ..UNIT })
}

fn min_x_nan<J: Judge>() -> String {
    held::<J>(Range { min_x: NAN, ..UNIT })
}

/// What the finest table holds for one lamp at (0.25,0.5).
fn held<J: Judge>(range: Range) -> String {
    let options = Options { plane: Plane::Cartesian(range), ..WORKED };
    let build = load::<J>(options, &[[0.25, 0.5]]);
    let entry = build.table(2).expect("table 2")[0];
    format!("({},{})", entry.x, entry.y)
}
