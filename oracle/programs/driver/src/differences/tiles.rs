//! Tiles that are none: SCOPE refuses 7 or has no such question, the Rust takes any numbers.

use super::{case, example, load, told, Case};
use crate::plain::{spots, WORKED};
use beside::judge::Judge;

pub fn cases<J: Judge>() -> Vec<Case> {
    vec![
        case("T1", || told(example::<J>().tile(32, 0.0, 0.0), spots)),
        case("T2", || told(example::<J>().tile(255, 0.0, 0.0), spots)),
        case("T3", || tile::<J>([1.0, 0.5], 1.0, 0.0)),
        case("T4", || tile::<J>([0.5, 1.0], 0.0, 1.0)),
        case("T5", || tile::<J>([0.0, 0.5], -1.0, 0.0)),
        case("T6", || tile::<J>([0.5, 0.5], 0.5, 0.0)),
        case("T7", || tile::<J>([0.5, 0.5], f64::NAN, 0.0)),
    ]
}

/// Tile (0,x,y) over one lamp.
fn tile<J: Judge>(lamp: [f64; 2], x: f64, y: f64) -> String {
    told(load::<J>(WORKED, &[lamp]).tile(0, x, y), spots)
}
