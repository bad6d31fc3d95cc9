//! Tiles of a site plan: the Rust runs its strips there, and SCOPE leaves them out where the option says so.

use super::{case, load, told, Case};
use crate::plain::{spots, Item, WORKED};
use beside::judge::Judge;

/// The Rust's tiles.
pub fn cases<J: Judge>() -> Vec<Case> {
    vec![
        case("P1", || told(tile::<J>(RIGHT, 0), spots)),
        case("P2", || told(tile::<J>(LEFT, 0), spots)),
        case("P3", || told(tile::<J>(RIGHT, 1), spots)),
    ]
}

/// The same tiles by the Rust's search of their own range.
pub fn without_strips<J: Judge>() -> Vec<Case> {
    vec![
        case("P1", || by_number(own_range::<J>(RIGHT, 0))),
        case("P2", || by_number(own_range::<J>(LEFT, 0))),
        case("P3", || by_number(own_range::<J>(RIGHT, 1))),
    ]
}

/// Lamps at the fences of a plan.
const RIGHT: [f64; 2] = [1.0, 0.5];
const LEFT: [f64; 2] = [0.0, 0.5];

/// Tile (z,0,0) over one lamp.
fn tile<J: Judge>(lamp: [f64; 2], z: u8) -> Result<Vec<Item>, String> {
    load::<J>(WORKED, &[lamp]).tile(z, 0.0, 0.0)
}

/// Its own range alone.
fn own_range<J: Judge>(lamp: [f64; 2], z: u8) -> Result<Vec<Item>, String> {
    load::<J>(WORKED, &[lamp]).own_range(z, 0.0, 0.0)
}

/// An answer as text, the Rust's error by our number of it.
fn by_number(answer: Result<Vec<Item>, String>) -> String {
    match answer {
        Err(error) if error == "TileNotFound" => "refused 8".to_string(),
        answer => told(answer, spots),
    }
}
