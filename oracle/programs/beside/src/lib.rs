//! Answers to questions beside the Rust, whoever gives them: the reference, or the port. The Rust is asked here, and
//! here it is judged what is the same, what docs/DIFFERENCES.md lists, and what differs.
//!
//! Compared are every id and count of an answer, in order, every coordinate of a tile, every number, and the error
//! that stands for the same refusal. A difference has to be one that the page lists, by the question and the reason
//! of its refusal, and for an id by the Rust's outcome too; it is counted under its codes. A test makes right
//! answers wrong in one thing, and each must be a difference.
//!
//! - Tiles: where strips are for longitude only and the plan is Cartesian (#114), a tile is held to what the
//!   Rust's own `range` finds between the tile's edges, which are ours, and to the items that the Rust makes of it.
//!   The Rust's `get_tile` must be that very list away from the ends of a row, and may have more behind it at the
//!   ends: P1 to P3. In every other build the judge is `get_tile`.
//! - Tallies (#104): the counts of the distinct features of `get_tile` whose centre, looked up by id in the
//!   Rust's own table, lies in the tile; that is found by whole numbers on its bits (`questions::home`).
//! - Limit 0 (#101): the Rust lists all, which is counted under N1 where the answer lists nothing.
//! - Over lent tables the Rust is not asked what SCOPE refuses by 11, since it would go on, panic or not end.

mod case;
mod counted;
pub mod judge;
mod listed;
mod plain;
mod plans;
mod rust;
mod rusts;
mod skipped;

pub use case::{Case, Verdict};
pub use counted::Beside;
pub use plain::{Entry, Item};
pub use rust::{Rust, Said};
pub use rusts::Rusts;
